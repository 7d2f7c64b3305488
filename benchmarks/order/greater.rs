// Times three bodies of "is a term greater than an instance", in plain Rust, as rewriting asks it: the term as it stands, the other side of a
// unit under the pairs of its matcher. `whole` is the walk of `crates/kbo_order` that decides and counts at once; `early` is what
// `greater_under` did, sizes and heads before that walk; `late` has the size, the head, the first differing argument, and the counts of
// variables last. The terms have variables below 32.
//
//     rustc -O greater.rs && ./greater

use std::hint::black_box;
use std::time::Instant;

enum Term {
    Var(u32),
    App(u32, Vec<Term>),
}

use Term::{App, Var};

/// A term, and the pairs it is read under: none where it stands for itself.
#[derive(Clone, Copy)]
struct Read<'a> {
    term: &'a Term,
    pairs: &'a [(u32, &'a Term)],
    is_bound: bool,
}

impl<'a> Read<'a> {
    #[inline(always)]
    fn head(self) -> Read<'a> {
        match self.term {
            Var(number) if !self.is_bound => {
                let found = self.pairs.iter().find(|pair| pair.0 == *number);
                Read { term: found.map_or(self.term, |pair| pair.1), is_bound: true, ..self }
            }
            _ => self,
        }
    }

    fn size(self) -> u64 {
        let top = self.head();
        match top.term {
            Var(_) => 1,
            App(_, arguments) => 1 + arguments.iter().map(|term| Read { term, ..top }.size()).sum::<u64>(),
        }
    }

    fn is_same(self, other: Read<'_>) -> bool {
        let (left, right) = (self.head(), other.head());
        match (left.term, right.term) {
            (Var(first), Var(second)) => first == second,
            (App(first, ones), App(second, others)) => {
                first == second
                    && ones.len() == others.len()
                    && ones.iter().zip(others).all(|(one, other)| Read { term: one, ..left }.is_same(Read { term: other, ..right }))
            }
            _ => false,
        }
    }
}

#[derive(Clone, Copy, PartialEq)]
enum Cmp {
    Less,
    Equal,
    Greater,
    Unordered,
}

/// What stands more often on one side than on the other, from LEVEL up and down.
struct Balance {
    weight: u64,
    counts: [u64; 32],
    more_left: u64,
    more_right: u64,
}

const LEVEL: u64 = 1 << 63;

impl Balance {
    fn add(&mut self, is_left: bool, read: Read<'_>) {
        let top = read.head();
        if is_left {
            self.weight += 1;
        } else {
            self.weight -= 1;
        }
        match top.term {
            Var(number) => self.count(is_left, *number as usize),
            App(_, arguments) => {
                for term in arguments {
                    self.add(is_left, Read { term, ..top });
                }
            }
        }
    }

    fn count(&mut self, is_left: bool, index: usize) {
        if index >= 32 {
            return;
        }
        let count = self.counts[index];
        if is_left {
            self.more_left += u64::from(count == LEVEL);
            self.more_right -= u64::from(count + 1 == LEVEL);
            self.counts[index] = count + 1;
        } else {
            self.more_right += u64::from(count == LEVEL);
            self.more_left -= u64::from(count - 1 == LEVEL);
            self.counts[index] = count - 1;
        }
    }

    fn meet(&mut self, left: Read<'_>, right: Read<'_>) {
        self.add(true, left);
        self.add(false, right);
    }

    fn compare(&mut self, left: Read<'_>, right: Read<'_>) -> Cmp {
        let (left, right) = (left.head(), right.head());
        let tie = match (left.term, right.term) {
            (App(first, ones), App(second, others)) if first == second => self.compare_lists(ones, left, others, right),
            (App(first, _), App(second, _)) => {
                self.meet(left, right);
                if first > second { Cmp::Greater } else { Cmp::Less }
            }
            (Var(first), Var(second)) if first == second => Cmp::Equal,
            _ => {
                self.meet(left, right);
                Cmp::Unordered
            }
        };
        self.decide(tie)
    }

    fn compare_lists(&mut self, ones: &[Term], left: Read<'_>, others: &[Term], right: Read<'_>) -> Cmp {
        for (index, (one, other)) in ones.iter().zip(others).enumerate() {
            let found = self.compare(Read { term: one, ..left }, Read { term: other, ..right });
            if found != Cmp::Equal {
                for term in &ones[index + 1..] {
                    self.add(true, Read { term, ..left });
                }
                for term in &others[index + 1..] {
                    self.add(false, Read { term, ..right });
                }
                return found;
            }
        }
        Cmp::Equal
    }

    fn decide(&self, tie: Cmp) -> Cmp {
        let larger = match self.weight.cmp(&LEVEL) {
            std::cmp::Ordering::Greater => Cmp::Greater,
            std::cmp::Ordering::Less => Cmp::Less,
            std::cmp::Ordering::Equal => tie,
        };
        match larger {
            Cmp::Greater if self.more_right > 0 => Cmp::Unordered,
            Cmp::Less if self.more_left > 0 => Cmp::Unordered,
            _ => larger,
        }
    }
}

#[inline(never)]
fn whole(left: Read<'_>, right: Read<'_>) -> bool {
    let mut balance = Balance { weight: LEVEL, counts: [LEVEL; 32], more_left: 0, more_right: 0 };
    balance.compare(left, right) == Cmp::Greater
}

#[inline(never)]
fn early(left: Read<'_>, right: Read<'_>) -> bool {
    let (left_size, right_size) = (left.size(), right.size());
    if left_size < right_size {
        return false;
    }
    if left_size == right_size {
        match (left.head().term, right.head().term) {
            (App(first, _), App(second, _)) if first >= second => {}
            _ => return false,
        }
    }
    whole(left, right)
}

#[inline(never)]
fn late(left: Read<'_>, right: Read<'_>) -> bool {
    let (left_size, right_size) = (left.size(), right.size());
    if left_size < right_size {
        return false;
    }
    if left_size == right_size && !is_tie_greater(left.head(), right.head()) {
        return false;
    }
    let mut counts = [0; 32];
    count(left, &mut counts);
    takes(right, &mut counts)
}

fn is_tie_greater(left: Read<'_>, right: Read<'_>) -> bool {
    match (left.term, right.term) {
        (App(first, ones), App(second, others)) => {
            if first != second {
                return first > second;
            }
            for (one, other) in ones.iter().zip(others) {
                let (one, other) = (Read { term: one, ..left }, Read { term: other, ..right });
                if !one.is_same(other) {
                    return late(one, other);
                }
            }
            false
        }
        _ => false,
    }
}

fn count(read: Read<'_>, counts: &mut [u32; 32]) {
    let top = read.head();
    match top.term {
        Var(number) => counts[*number as usize & 31] += 1,
        App(_, arguments) => {
            for term in arguments {
                count(Read { term, ..top }, counts);
            }
        }
    }
}

/// Takes the right side's variables away. False as soon as one stands more often.
fn takes(read: Read<'_>, counts: &mut [u32; 32]) -> bool {
    let top = read.head();
    match top.term {
        Var(number) => {
            let count = &mut counts[*number as usize & 31];
            if *count == 0 {
                return false;
            }
            *count -= 1;
            true
        }
        App(_, arguments) => arguments.iter().all(|term| takes(Read { term, ..top }, counts)),
    }
}

/// A term from a text: a letter is a symbol, and a digit a variable.
fn parsed(text: &mut std::iter::Peekable<std::str::Bytes<'_>>) -> Term {
    let byte = text.next().expect("a term");
    if byte.is_ascii_digit() {
        return Var(u32::from(byte - b'0'));
    }
    let mut arguments = Vec::new();
    if text.peek() == Some(&b'(') {
        while text.next() != Some(b')') {
            arguments.push(parsed(text));
            if text.peek() == Some(&b')') {
                text.next();
                break;
            }
        }
    }
    App(u32::from(byte - b'a') + 1, arguments)
}

fn term(text: &str) -> Term {
    parsed(&mut text.bytes().peekable())
}

/// Puts a pattern onto a term.
fn match_onto<'a>(pattern: &Term, target: &'a Term, pairs: &mut Vec<(u32, &'a Term)>) {
    match (pattern, target) {
        (Var(number), _) => {
            if !pairs.iter().any(|pair| pair.0 == *number) {
                pairs.push((*number, target));
            }
        }
        (App(_, ones), App(_, others)) => {
            for (one, other) in ones.iter().zip(others) {
                match_onto(one, other, pairs);
            }
        }
        _ => panic!("no match"),
    }
}

/// The least time of a call in ns.
fn best(body: fn(Read<'_>, Read<'_>) -> bool, left: Read<'_>, right: Read<'_>) -> f64 {
    let mut best = f64::MAX;
    for _ in 0..1_000 {
        let start = Instant::now();
        for _ in 0..200 {
            black_box(body(black_box(left), black_box(right)));
        }
        best = best.min(start.elapsed().as_nanos() as f64 / 200.0);
    }
    best
}

/// What a row shows; the sides of a unit, and the term onto which the left one is put.
const ROWS: [[&str; 4]; 10] = [
    ["refused by size", "f(0,1)", "f(f(0,0),1)",
        "f(h(h(g(g(g(5,a),g(b,6)),g(g(a,5),g(b,a))))),h(h(g(g(g(5,a),g(b,6)),g(g(a,5),g(b,b))))))"],
    ["refused by head", "f(0,1)", "g(0,1)",
        "f(h(h(g(g(g(5,a),g(b,6)),g(g(a,5),g(b,a))))),h(h(g(g(g(5,a),g(b,6)),g(g(a,5),g(b,b))))))"],
    ["refused by the size of the first argument", "f(0,1)", "f(1,0)",
        "f(g(5,a),g(g(g(g(5,a),g(b,6)),g(g(a,5),g(b,a))),g(g(g(5,a),g(b,6)),g(g(a,5),g(b,a)))))"],
    ["refused at the last leaf of the first argument", "f(0,1)", "f(1,0)",
        "f(h(h(g(g(g(5,a),g(b,6)),g(g(a,5),g(b,a))))),h(h(g(g(g(5,a),g(b,6)),g(g(a,5),g(b,b))))))"],
    ["refused by variables", "f(0,1)", "f(0,0)",
        "f(h(h(g(g(g(5,a),g(b,6)),g(g(a,5),g(b,a))))),k(h(g(g(g(a,a),g(b,a)),g(g(a,a),g(b,a))))))"],
    ["greater by size", "f(0,1)", "0",
        "f(h(h(g(g(g(5,a),g(b,6)),g(g(a,5),g(b,a))))),h(h(g(g(g(5,a),g(b,6)),g(g(a,5),g(b,b))))))"],
    ["greater by head", "f(0,1)", "e(0,1)",
        "f(h(h(g(g(g(5,a),g(b,6)),g(g(a,5),g(b,a))))),h(h(g(g(g(5,a),g(b,6)),g(g(a,5),g(b,b))))))"],
    ["greater by the size of the first argument", "f(f(0,1),2)", "f(0,f(1,2))",
        "f(f(h(h(h(h(g(g(5,a),g(b,6)))))),h(h(h(h(g(g(5,a),g(b,6))))))),h(h(h(h(g(g(5,a),g(b,6)))))))"],
    ["greater at the last leaf of the first argument", "f(0,1)", "f(1,0)",
        "f(h(h(g(g(g(5,a),g(b,6)),g(g(a,5),g(b,b))))),h(h(g(g(g(5,a),g(b,6)),g(g(a,5),g(b,a))))))"],
    ["greater at the end of a tower", "0", "k(k(k(k(k(k(k(k(k(k(k(k(k(k(k(k(k(k(k(k(k(k(k(k(k(k(k(k(k(k(k(k(k(k(a))))))))))))))))))))))))))))))))))",
        "k(k(k(k(k(k(k(k(k(k(k(k(k(k(k(k(k(k(k(k(k(k(k(k(k(k(k(k(k(k(k(k(k(k(b))))))))))))))))))))))))))))))))))"],
];

fn main() {
    for [name, from, to, old] in ROWS {
        let (from, to, old) = (term(from), term(to), term(old));
        let mut pairs = Vec::new();
        match_onto(&from, &old, &mut pairs);
        let left = Read { term: &old, pairs: &[], is_bound: true };
        let right = Read { term: &to, pairs: &pairs, is_bound: false };
        let answer = whole(left, right);
        assert_eq!(answer, early(left, right), "{name}");
        assert_eq!(answer, late(left, right), "{name}");
        println!(
            "{name} ({} and {} symbols): {answer}, early {:.0} ns, whole {:.0} ns, late {:.0} ns",
            left.size(), right.size(), best(early, left, right), best(whole, left, right), best(late, left, right)
        );
    }
}
