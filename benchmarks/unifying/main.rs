// Times `unify` on the pairs of robinson.rs, and matching on generated patterns: how many unify or match, and the nanoseconds a symbol, of each
// list's best round.
#![tactic(auto)]

use fol_base::{Term, Terms};
use plain_types::Mem;
use sample::Random;
use sample::{binary, constant, unary};
use std::alloc::Global;
use std::io;
use std::process::Abort;
use std::time::Instant;
use unifier::{Matched, match_onto, unify};

const A: u32 = 1;

const B: u32 = 2;

const F: u32 = 3;

const G: u32 = 4;

const C: u32 = 5;

const PAIRS: u32 = 1_000;

/// How often each list is unified; its best time counts.
const ROUNDS: u32 = 400;

/// A leaf: the given constant, or one of four variables, or a.
fn leaf(alloc: Global, numbers: &mut Random, given: Option<u32>) -> Term {
    if let Some(symbol) = given {
        return constant(alloc, symbol);
    }
    match numbers.below(8) {
        0 => Term::Var(0),
        1 => Term::Var(1),
        2 => Term::Var(2),
        3 => Term::Var(3),
        _ => constant(alloc, A),
    }
}

/// Makes one term of the last two, where there are two.
fn join(rt: &impl Abort, alloc: Global, terms: &mut Vec<Term>) {
    if let Some(second) = terms.pop() {
        let made = match terms.pop() {
            Some(first) => binary(alloc, F, first, second).expect(rt, "memory"),
            None => second,
        };
        terms.push(made).expect(rt, "memory");
    }
}

/// Makes one term of all. X0 where there is none.
fn joined(rt: &impl Abort, alloc: Global, mut terms: Vec<Term>) -> Term {
    for _ in 0..terms.len() {
        join(rt, alloc, &mut terms);
    }
    terms.pop().unwrap_or(Term::Var(0))
}

#[derive(Drop)]
struct Pair {
    left: Term,
    right: Term,
}

/// Two terms of one shape with leaves of their own, which clash at one leaf where that is asked for.
fn same_shape(rt: &impl Abort, alloc: Global, numbers: &mut Random, clashes: bool) -> Pair {
    let mut left = Vec::new(alloc);
    let mut right = Vec::new(alloc);
    let leaves = numbers.below(10).saturating_add(5);
    let place = numbers.below(leaves);
    for index in 0..leaves {
        let here = clashes && index == place;
        left.push(leaf(alloc, numbers, here.then_some(B)))
            .expect(rt, "memory");
        right
            .push(leaf(alloc, numbers, here.then_some(C)))
            .expect(rt, "memory");
        if numbers.below(2) == 0 {
            join(rt, alloc, &mut left);
            join(rt, alloc, &mut right);
        }
    }
    Pair {
        left: joined(rt, alloc, left),
        right: joined(rt, alloc, right),
    }
}

/// The pair behind `f(X4,X4)` and `f(X4,g(X4))`, which don't unify.
fn with_circle(rt: &impl Abort, alloc: Global, pair: Pair) -> Pair {
    let variables = binary(alloc, F, Term::Var(4), Term::Var(4)).expect(rt, "memory");
    let contained = unary(alloc, G, Term::Var(4)).expect(rt, "memory");
    let circle = binary(alloc, F, Term::Var(4), contained).expect(rt, "memory");
    Pair {
        left: binary(alloc, F, variables, pair.left).expect(rt, "memory"),
        right: binary(alloc, F, circle, pair.right).expect(rt, "memory"),
    }
}

fn pairs(rt: &impl Abort, alloc: Global) -> Vec<Pair> {
    let mut numbers = Random::new(1);
    let mut made = Vec::new(alloc);
    for index in 0..PAIRS {
        let mut pair = same_shape(rt, alloc, &mut numbers, index % 10 < 5);
        if index % 10 == 5 {
            pair = with_circle(rt, alloc, pair);
        }
        made.push(pair).expect(rt, "memory");
    }
    made
}

/// What is asked of a pair.
#[derive(Clone, Copy)]
enum Way {
    Apart,
    Together,
    /// Apart, and the substitutions of both sides where they unify.
    Substs,
    MatchOnto,
    Extend,
}

/// Whether one pair unifies or matches.
fn answer(alloc: Global, pair: &Pair, way: Way) -> Mem<bool> {
    match way {
        Way::Apart => Ok(unify(alloc, &pair.left, &pair.right, true)?.is_some()),
        Way::Together => Ok(unify(alloc, &pair.left, &pair.right, false)?.is_some()),
        Way::Substs => match unify(alloc, &pair.left, &pair.right, true)? {
            Some(found) => {
                let _both = found.substs(5, 5)?;
                Ok(true)
            }
            None => Ok(false),
        },
        Way::MatchOnto => {
            let empty = Matched::empty(alloc);
            Ok(match_onto(alloc, &pair.left, &pair.right, &empty)?.is_some())
        }
        Way::Extend => {
            let mut matched = Matched::empty(alloc);
            matched.extend(&pair.left, &pair.right)
        }
    }
}

/// How many pairs unify, or match.
fn answers(alloc: Global, pairs: &[Pair], way: Way) -> Mem<u64> {
    let mut count: u64 = 0;
    for pair in pairs {
        count = count.saturating_add(u64::from(answer(alloc, pair, way)?));
    }
    Ok(count)
}

/// `f(X0, f(X1, .. f(Xn, a)))` and `f(f(X1, X1), f(f(X2, X2), ..))`: the instance doubles with each level.
fn family(rt: &impl Abort, alloc: Global, depth: u32, doubled: bool) -> Term {
    let mut made = constant(alloc, A);
    for back in 0..depth {
        let variable = depth - back;
        let first = if doubled {
            binary(alloc, F, Term::Var(variable), Term::Var(variable)).expect(rt, "memory")
        } else {
            Term::Var(variable - 1)
        };
        made = binary(alloc, F, first, made).expect(rt, "memory");
    }
    made
}

/// Those of the pairs that clash, those in which a variable contains itself, and those that unify.
#[derive(Drop)]
struct Kinds {
    clashing: Vec<Pair>,
    circles: Vec<Pair>,
    unifying: Vec<Pair>,
}

fn kinds(rt: &impl Abort, alloc: Global, pairs: Vec<Pair>) -> Kinds {
    let mut kinds = Kinds { clashing: Vec::new(alloc), circles: Vec::new(alloc), unifying: Vec::new(alloc) };
    let mut index: u32 = 0;
    for pair in pairs {
        match index {
            0..=4 => kinds.clashing.push(pair).expect(rt, "memory"),
            5 => kinds.circles.push(pair).expect(rt, "memory"),
            _ => kinds.unifying.push(pair).expect(rt, "memory"),
        }
        index = if index >= 9 { 0 } else { index.saturating_add(1) };
    }
    kinds
}

/// The list of the terms, made of `f` and `a`.
fn list(rt: &impl Abort, alloc: Global, mut terms: Vec<Term>) -> Term {
    let mut made = constant(alloc, A);
    for _ in 0..terms.len() {
        if let Some(last) = terms.pop() {
            made = binary(alloc, F, last, made).expect(rt, "memory");
        }
    }
    made
}

fn twice(rt: &impl Abort, alloc: Global, variable: u32) -> Term {
    binary(alloc, F, Term::Var(variable), Term::Var(variable)).expect(rt, "memory")
}

/// The classical family: `X1 .. Xn, f(Y0,Y0) .. f(Yn-1,Yn-1), Yn` and `f(X0,X0) .. f(Xn-1,Xn-1), Y1 .. Yn, Xn`, as lists.
fn classical(rt: &impl Abort, alloc: Global, levels: u32) -> Pair {
    let first_y = levels.saturating_add(1);
    let mut left = Vec::new(alloc);
    let mut right = Vec::new(alloc);
    for index in 0..levels {
        left.push(Term::Var(index.saturating_add(1))).expect(rt, "memory");
        right.push(twice(rt, alloc, index)).expect(rt, "memory");
    }
    for index in 0..levels {
        let y = first_y.saturating_add(index);
        left.push(twice(rt, alloc, y)).expect(rt, "memory");
        right.push(Term::Var(y.saturating_add(1))).expect(rt, "memory");
    }
    left.push(Term::Var(first_y.saturating_add(levels))).expect(rt, "memory");
    right.push(Term::Var(levels)).expect(rt, "memory");
    Pair { left: list(rt, alloc, left), right: list(rt, alloc, right) }
}

/// `f(f(X0,g(X1)),f(a,f(X2,b)))` and `f(f(g(X0),X1),f(X2,f(c,b)))`.
fn twenty_symbols(rt: &impl Abort, alloc: Global) -> Pair {
    let over_g = unary(alloc, G, Term::Var(1)).expect(rt, "memory");
    let first = binary(alloc, F, Term::Var(0), over_g).expect(rt, "memory");
    let last = binary(alloc, F, Term::Var(2), constant(alloc, B)).expect(rt, "memory");
    let second = binary(alloc, F, constant(alloc, A), last).expect(rt, "memory");
    let left = binary(alloc, F, first, second).expect(rt, "memory");
    let over_g = unary(alloc, G, Term::Var(0)).expect(rt, "memory");
    let first = binary(alloc, F, over_g, Term::Var(1)).expect(rt, "memory");
    let last = binary(alloc, F, constant(alloc, C), constant(alloc, B)).expect(rt, "memory");
    let second = binary(alloc, F, Term::Var(2), last).expect(rt, "memory");
    let right = binary(alloc, F, first, second).expect(rt, "memory");
    Pair { left, right }
}

/// What stands for one of four variables in the instances of patterns.
fn put_in(rt: &impl Abort, alloc: Global, variable: u32) -> Term {
    match variable {
        0 => constant(alloc, B),
        1 => unary(alloc, G, Term::Var(7)).expect(rt, "memory"),
        2 => Term::Var(6),
        _ => binary(alloc, F, constant(alloc, A), Term::Var(5)).expect(rt, "memory"),
    }
}

/// A pattern of the shape of the pairs, and its instance. Where it's to fail, the last symbols of both are different.
fn pattern(rt: &impl Abort, alloc: Global, numbers: &mut Random, fails: bool) -> Pair {
    let mut left = Vec::new(alloc);
    let mut right = Vec::new(alloc);
    let leaves = numbers.below(10).saturating_add(5);
    for _ in 0..leaves {
        let pattern_leaf = leaf(alloc, numbers, None);
        let target_leaf = match &pattern_leaf {
            Term::Var(variable) => put_in(rt, alloc, *variable),
            Term::App(symbol, _) => constant(alloc, *symbol),
        };
        left.push(pattern_leaf).expect(rt, "memory");
        right.push(target_leaf).expect(rt, "memory");
        if numbers.below(2) == 0 {
            join(rt, alloc, &mut left);
            join(rt, alloc, &mut right);
        }
    }
    if fails {
        left.push(constant(alloc, A)).expect(rt, "memory");
        right.push(constant(alloc, C)).expect(rt, "memory");
    }
    Pair { left: joined(rt, alloc, left), right: joined(rt, alloc, right) }
}

fn patterns(rt: &impl Abort, alloc: Global, fails: bool) -> Vec<Pair> {
    let mut numbers = Random::new(1);
    let mut made = Vec::new(alloc);
    for _ in 0..PAIRS {
        made.push(pattern(rt, alloc, &mut numbers, fails)).expect(rt, "memory");
    }
    made
}

/// A full binary tree of that many levels, all leaves of which are a.
fn ground_tree(rt: &impl Abort, alloc: Global, levels: u32) -> Term {
    let mut made = constant(alloc, A);
    for _ in 0..levels {
        let other = made.copy(alloc).expect(rt, "memory");
        made = binary(alloc, F, made, other).expect(rt, "memory");
    }
    made
}

/// X0 with `f(X0,t)`, where t has no variable: X0 would contain itself.
fn contained(rt: &impl Abort, alloc: Global, levels: u32) -> Pair {
    let tree = ground_tree(rt, alloc, levels);
    Pair { left: Term::Var(0), right: binary(alloc, F, Term::Var(0), tree).expect(rt, "memory") }
}

/// X0 with one symbol over so many other variables.
fn bound_to_variables(rt: &impl Abort, alloc: Global, count: u32) -> Pair {
    let mut arguments = Terms::new(alloc);
    for index in 0..count {
        arguments.push(Term::Var(index.saturating_add(1))).expect(rt, "memory");
    }
    Pair { left: Term::Var(0), right: Term::App(G, arguments) }
}

/// A pair so often that a round is long beside the clock's own time.
fn repeated(rt: &impl Abort, alloc: Global, pair: Pair, times: u32) -> Vec<Pair> {
    let mut made = Vec::new(alloc);
    for _ in 0..times {
        let left = pair.left.copy(alloc).expect(rt, "memory");
        let right = pair.right.copy(alloc).expect(rt, "memory");
        made.push(Pair { left, right }).expect(rt, "memory");
    }
    made
}

fn row(rt: &HostRuntime, name: &str, pairs: &[Pair], way: Way) -> io::Result<()> {
    let mut symbols: u64 = 0;
    for pair in pairs {
        symbols = symbols.saturating_add(pair.left.size()).saturating_add(pair.right.size());
    }
    let mut best = u128::MAX;
    let mut count: u64 = 0;
    for _ in 0..ROUNDS {
        let start = Instant::now(rt)?;
        count = answers(rt.alloc(), pairs, way).unwrap_or(0);
        let time = start.elapsed(rt)?.as_nanos();
        if time < best {
            best = time;
        }
    }
    let asked = match way {
        Way::Apart => "unify apart",
        Way::Together => "unify",
        Way::Substs => "unify apart, with substs(5, 5)",
        Way::MatchOnto => "match_onto",
        Way::Extend => "extend",
    };
    let each = best.checked_div(u128::from(pairs.len() as u64)).unwrap_or(0);
    let tenth = best.saturating_mul(10).checked_div(u128::from(symbols)).unwrap_or(0);
    println!(rt; "{name}, {asked}: {count} of {}, {each} ns a pair, {tenth} tenths of a ns a symbol, {symbols} symbols", pairs.len())?;
    Ok(())
}

fn unify_rows(rt: &HostRuntime, name: &str, pairs: &[Pair]) -> io::Result<()> {
    row(rt, name, pairs, Way::Apart)?;
    row(rt, name, pairs, Way::Together)
}

fn match_rows(rt: &HostRuntime, name: &str, pairs: &[Pair]) -> io::Result<()> {
    row(rt, name, pairs, Way::MatchOnto)?;
    row(rt, name, pairs, Way::Extend)
}

fn main(rt: HostRuntime) -> io::Result<()> {
    let alloc = rt.alloc();
    let made = pairs(&rt, alloc);
    unify_rows(&rt, "pairs", made.as_slice())?;
    let kinds = kinds(&rt, alloc, made);
    unify_rows(&rt, "unifying pairs", kinds.unifying.as_slice())?;
    unify_rows(&rt, "clashing pairs", kinds.clashing.as_slice())?;
    unify_rows(&rt, "pairs with a circle", kinds.circles.as_slice())?;
    let twenty = repeated(&rt, alloc, twenty_symbols(&rt, alloc), 100);
    row(&rt, "20 symbols", twenty.as_slice(), Way::Apart)?;
    row(&rt, "20 symbols", twenty.as_slice(), Way::Substs)?;
    let matching = patterns(&rt, alloc, false);
    match_rows(&rt, "patterns", matching.as_slice())?;
    let failing = patterns(&rt, alloc, true);
    match_rows(&rt, "patterns that fail last", failing.as_slice())?;
    let doubled = Pair { left: family(&rt, alloc, 200, false), right: family(&rt, alloc, 200, true) };
    let families = repeated(&rt, alloc, doubled, 1);
    row(&rt, "family 200", families.as_slice(), Way::Apart)?;
    for levels in [10, 60, 500] {
        let family = repeated(&rt, alloc, classical(&rt, alloc, levels), 2);
        println!(rt; "{levels} levels:")?;
        unify_rows(&rt, "classical family", family.as_slice())?;
    }
    let small = repeated(&rt, alloc, contained(&rt, alloc, 0), 100);
    row(&rt, "X0 with f(X0,a)", small.as_slice(), Way::Together)?;
    let large = repeated(&rt, alloc, contained(&rt, alloc, 4), 100);
    row(&rt, "X0 with f(X0,t), t of 31 symbols", large.as_slice(), Way::Together)?;
    for count in [8, 15, 16, 100, 1_000] {
        let many = repeated(&rt, alloc, bound_to_variables(&rt, alloc, count), 10);
        println!(rt; "{count} variables:")?;
        row(&rt, "X0 with g of them", many.as_slice(), Way::Together)?;
    }
    Ok(())
}
