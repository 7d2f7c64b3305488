// A plain unifier after Robinson (1965), for comparison with `crates/unifier`: bindings of variables to terms as they
// stand, looked up on the way, and an occurs check by a walk at each binding. It makes the same pairs as the test
// `generated_pairs`, and prints how many unify apart and together, and the nanoseconds a symbol.
//
//     rustc -O robinson.rs && ./robinson pairs 1000 1000
//     ./robinson classical 20 1
//     ./robinson twenty 100 1000
//
// Of the pairs it tells, too, those that clash (the first five of each ten), those in which a variable contains itself (the sixth) and those
// that unify apart.

use std::time::Instant;

enum Term {
    Var(u32),
    App(u32, Vec<Term>),
}

use Term::{App, Var};

fn size(term: &Term) -> u64 {
    match term {
        Var(_) => 1,
        App(_, arguments) => 1 + arguments.iter().map(size).sum::<u64>(),
    }
}

#[derive(Clone, Copy)]
struct Sided<'a> {
    side: usize,
    term: &'a Term,
}

struct Unifier<'a> {
    apart: bool,
    bound: Vec<Option<Sided<'a>>>,
}

impl<'a> Unifier<'a> {
    fn code(&self, side: usize, variable: u32) -> usize {
        if self.apart { 2 * variable as usize + side } else { variable as usize }
    }

    fn walk(&mut self, mut at: Sided<'a>) -> Sided<'a> {
        while let Var(variable) = at.term {
            let code = self.code(at.side, *variable);
            if code >= self.bound.len() {
                self.bound.resize(code + 1, None);
            }
            match self.bound[code] {
                Some(next) => at = next,
                None => break,
            }
        }
        at
    }

    fn occurs(&mut self, code: usize, at: Sided<'a>) -> bool {
        let at = self.walk(at);
        match at.term {
            Var(variable) => self.code(at.side, *variable) == code,
            App(_, arguments) => arguments.iter().any(|term| self.occurs(code, Sided { side: at.side, term })),
        }
    }

    fn unify(&mut self, left: Sided<'a>, right: Sided<'a>) -> bool {
        let (left, right) = (self.walk(left), self.walk(right));
        match (left.term, right.term) {
            (Var(variable), _) => self.bind(self.code(left.side, *variable), right),
            (_, Var(variable)) => self.bind(self.code(right.side, *variable), left),
            (App(f, firsts), App(g, seconds)) => {
                f == g
                    && firsts.len() == seconds.len()
                    && firsts.iter().zip(seconds).all(|(first, second)| {
                        self.unify(Sided { side: left.side, term: first }, Sided { side: right.side, term: second })
                    })
            }
        }
    }

    fn bind(&mut self, code: usize, to: Sided<'a>) -> bool {
        if let Var(variable) = to.term {
            if self.code(to.side, *variable) == code {
                return true;
            }
        }
        if self.occurs(code, to) {
            return false;
        }
        self.bound[code] = Some(to);
        true
    }
}

fn unifies(left: &Term, right: &Term, apart: bool) -> bool {
    let mut unifier = Unifier { apart, bound: Vec::new() };
    unifier.unify(Sided { side: 0, term: left }, Sided { side: 1, term: right })
}

struct Numbers(u64);

impl Numbers {
    fn below(&mut self, bound: u64) -> u64 {
        self.0 = self.0.wrapping_mul(6_364_136_223_846_793_005).wrapping_add(1_442_695_040_888_963_407);
        (self.0 >> 33) % bound
    }
}

fn constant(symbol: u32) -> Term {
    App(symbol, Vec::new())
}

fn binary(first: Term, second: Term) -> Term {
    App(3, vec![first, second])
}

fn leaf(numbers: &mut Numbers, given: Option<u32>) -> Term {
    if let Some(symbol) = given {
        return constant(symbol);
    }
    match numbers.below(8) {
        variable @ 0..=3 => Var(variable as u32),
        _ => constant(1),
    }
}

fn join(terms: &mut Vec<Term>) {
    if let Some(second) = terms.pop() {
        match terms.pop() {
            Some(first) => terms.push(binary(first, second)),
            None => terms.push(second),
        }
    }
}

fn joined(mut terms: Vec<Term>) -> Term {
    for _ in 0..terms.len() {
        join(&mut terms);
    }
    terms.pop().unwrap()
}

fn same_shape(numbers: &mut Numbers, clashes: bool) -> (Term, Term) {
    let (mut left, mut right) = (Vec::new(), Vec::new());
    let leaves = numbers.below(10) + 5;
    let place = numbers.below(leaves);
    for index in 0..leaves {
        let here = clashes && index == place;
        left.push(leaf(numbers, here.then_some(2)));
        right.push(leaf(numbers, here.then_some(5)));
        if numbers.below(2) == 0 {
            join(&mut left);
            join(&mut right);
        }
    }
    (joined(left), joined(right))
}

fn with_circle((left, right): (Term, Term)) -> (Term, Term) {
    let circle = binary(Var(4), App(4, vec![Var(4)]));
    (binary(binary(Var(4), Var(4)), left), binary(circle, right))
}

fn pairs(count: u32) -> Vec<(Term, Term)> {
    let mut numbers = Numbers(1);
    (0..count)
        .map(|index| {
            let pair = same_shape(&mut numbers, index % 10 < 5);
            if index % 10 == 5 { with_circle(pair) } else { pair }
        })
        .collect()
}

/// `f(X0, f(X1, .. a))` and `f(f(X1, X1), f(f(X2, X2), .. a))`.
fn family(depth: u32, doubled: bool) -> Term {
    (0..depth).fold(constant(1), |made, back| {
        let variable = depth - back;
        let first = if doubled { binary(Var(variable), Var(variable)) } else { Var(variable - 1) };
        binary(first, made)
    })
}

/// The family on which binding terms as they stand is exponential: `X1 .. Xn, f(Y0,Y0) .. f(Yn-1,Yn-1), Yn` against
/// `f(X0,X0) .. f(Xn-1,Xn-1), Y1 .. Yn, Xn`, as lists.
fn classical(depth: u32) -> (Term, Term) {
    let twice = |variable| binary(Var(variable), Var(variable));
    let y = |index| depth + 1 + index;
    let mut left: Vec<Term> = (1..=depth).map(Var).collect();
    left.extend((0..depth).map(|index| twice(y(index))));
    left.push(Var(y(depth)));
    let mut right: Vec<Term> = (0..depth).map(twice).collect();
    right.extend((1..=depth).map(|index| Var(y(index))));
    right.push(Var(depth));
    let list = |terms: Vec<Term>| terms.into_iter().rev().fold(constant(1), |rest, first| binary(first, rest));
    (list(left), list(right))
}

/// `f(f(X0,g(X1)),f(a,f(X2,b)))` and `f(f(g(X0),X1),f(X2,f(c,b)))`.
fn twenty_symbols() -> (Term, Term) {
    let over_g = |variable| App(4, vec![Var(variable)]);
    let left = binary(binary(Var(0), over_g(1)), binary(constant(1), binary(Var(2), constant(2))));
    let right = binary(binary(over_g(0), Var(1)), binary(Var(2), binary(constant(5), constant(2))));
    (left, right)
}

fn main() {
    let arguments: Vec<String> = std::env::args().collect();
    let number: u32 = arguments[2].parse().unwrap();
    let rounds: u64 = arguments[3].parse().unwrap();
    let made = match arguments[1].as_str() {
        "pairs" => pairs(number),
        "classical" => vec![classical(number)],
        "twenty" => (0..number).map(|_| twenty_symbols()).collect(),
        _ => vec![(family(number, false), family(number, true))],
    };
    measure("all", &made, rounds);
    if arguments[1] != "pairs" {
        return;
    }
    let (mut clashing, mut circles, mut unifying) = (Vec::new(), Vec::new(), Vec::new());
    for (index, pair) in made.into_iter().enumerate() {
        match index % 10 {
            0..=4 => clashing.push(pair),
            5 => circles.push(pair),
            _ => unifying.push(pair),
        }
    }
    measure("those that clash", &clashing, rounds);
    measure("those with a circle", &circles, rounds);
    measure("those that unify apart", &unifying, rounds);
}

/// The best round of each list counts.
fn measure(name: &str, made: &[(Term, Term)], rounds: u64) {
    let symbols: u64 = made.iter().map(|(left, right)| size(left) + size(right)).sum();
    for apart in [true, false] {
        let mut best = u128::MAX;
        let mut count = 0;
        for _ in 0..rounds {
            let start = Instant::now();
            count = made.iter().filter(|(left, right)| unifies(left, right, apart)).count();
            best = best.min(start.elapsed().as_nanos());
        }
        println!("{name}, apart {apart}: {count} of {} unify, {:.2} ns a symbol, {symbols} symbols", made.len(), best as f64 / symbols as f64);
    }
}
