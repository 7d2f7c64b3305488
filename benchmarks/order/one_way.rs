// Times "is a term greater than an instance" by the crate's own bodies, as rewriting asks it: a term as it stands, and the other side of a unit
// under the terms that a match puts in. `whole` is `compare_under`, `one way` is `greater_under`, and `told` is `greater_at_equal_sizes`, where
// the two have one size.
#![tactic(auto)]

use fol_base::{Literal, Term, Terms, instance_size};
use kbo_order::{COMPARED_SIZE_LIMIT, Unbound, compare_under, greater_at_equal_sizes, greater_under};
use plain_types::Mem;
use sample::clause;
use std::alloc::Global;
use std::io;
use std::time::Instant;

const BATCHES: u32 = 1_000;

const BATCH: u32 = 200;

/// What a row shows; the term, the other side of the unit, and equations whose sides are put in for its variables in turn.
const ROWS: [(&str, &str); 11] = [
    ("refused by size",
        "f(h(h(g(g(g(5,a),g(b,6)),g(g(a,5),g(b,a))))),h(h(g(g(g(5,a),g(b,6)),g(g(a,5),g(b,b)))))) = f(f(0,0),1) | h(h(g(g(g(5,a),g(b,6)),g(g(a,5),g(b,a))))) = h(h(g(g(g(5,a),g(b,6)),g(g(a,5),g(b,b)))))"),
    ("refused by head",
        "f(h(h(g(g(g(5,a),g(b,6)),g(g(a,5),g(b,a))))),h(h(g(g(g(5,a),g(b,6)),g(g(a,5),g(b,b)))))) = g(0,1) | h(h(g(g(g(5,a),g(b,6)),g(g(a,5),g(b,a))))) = h(h(g(g(g(5,a),g(b,6)),g(g(a,5),g(b,b)))))"),
    ("refused by the size of the first argument",
        "f(g(5,a),g(g(g(g(5,a),g(b,6)),g(g(a,5),g(b,a))),g(g(g(5,a),g(b,6)),g(g(a,5),g(b,a))))) = f(1,0) | g(5,a) = g(g(g(g(5,a),g(b,6)),g(g(a,5),g(b,a))),g(g(g(5,a),g(b,6)),g(g(a,5),g(b,a))))"),
    ("refused at the last leaf of the first argument",
        "f(h(h(g(g(g(5,a),g(b,6)),g(g(a,5),g(b,a))))),h(h(g(g(g(5,a),g(b,6)),g(g(a,5),g(b,b)))))) = f(1,0) | h(h(g(g(g(5,a),g(b,6)),g(g(a,5),g(b,a))))) = h(h(g(g(g(5,a),g(b,6)),g(g(a,5),g(b,b)))))"),
    ("refused by variables",
        "f(h(h(g(g(g(5,a),g(b,6)),g(g(a,5),g(b,a))))),k(h(g(g(g(a,a),g(b,a)),g(g(a,a),g(b,a)))))) = f(0,0) | h(h(g(g(g(5,a),g(b,6)),g(g(a,5),g(b,a))))) = k(h(g(g(g(a,a),g(b,a)),g(g(a,a),g(b,a)))))"),
    ("refused by variables of the first argument",
        "f(k(h(g(g(g(a,a),g(b,a)),g(g(a,a),g(b,a))))),h(h(g(g(g(5,a),g(b,6)),g(g(a,5),g(b,b)))))) = f(1,1) | a = h(h(g(g(g(5,a),g(b,6)),g(g(a,5),g(b,b)))))"),
    ("greater by size",
        "f(h(h(g(g(g(5,a),g(b,6)),g(g(a,5),g(b,a))))),h(h(g(g(g(5,a),g(b,6)),g(g(a,5),g(b,b)))))) = 0 | h(h(g(g(g(5,a),g(b,6)),g(g(a,5),g(b,a))))) = h(h(g(g(g(5,a),g(b,6)),g(g(a,5),g(b,b)))))"),
    ("greater by head",
        "f(h(h(g(g(g(5,a),g(b,6)),g(g(a,5),g(b,a))))),h(h(g(g(g(5,a),g(b,6)),g(g(a,5),g(b,b)))))) = e(0,1) | h(h(g(g(g(5,a),g(b,6)),g(g(a,5),g(b,a))))) = h(h(g(g(g(5,a),g(b,6)),g(g(a,5),g(b,b)))))"),
    ("greater by the size of the first argument",
        "f(f(h(h(h(h(g(g(5,a),g(b,6)))))),h(h(h(h(g(g(5,a),g(b,6))))))),h(h(h(h(g(g(5,a),g(b,6))))))) = f(0,f(1,2)) | h(h(h(h(g(g(5,a),g(b,6)))))) = h(h(h(h(g(g(5,a),g(b,6)))))) | h(h(h(h(g(g(5,a),g(b,6)))))) = a"),
    ("greater at the last leaf of the first argument",
        "f(h(h(g(g(g(5,a),g(b,6)),g(g(a,5),g(b,b))))),h(h(g(g(g(5,a),g(b,6)),g(g(a,5),g(b,a)))))) = f(1,0) | h(h(g(g(g(5,a),g(b,6)),g(g(a,5),g(b,b))))) = h(h(g(g(g(5,a),g(b,6)),g(g(a,5),g(b,a)))))"),
    ("greater at the end of a tower",
        "k(k(k(k(k(k(k(k(k(k(k(k(k(k(k(k(k(k(k(k(k(k(k(k(k(k(k(k(k(k(k(k(k(k(b)))))))))))))))))))))))))))))))))) = k(k(k(k(k(k(k(k(k(k(k(k(k(k(k(k(k(k(k(k(k(k(k(k(k(k(k(k(k(k(k(k(k(k(a)))))))))))))))))))))))))))))))))) | a = a"),
];

/// The sides of the equations from the second one on.
fn put_in(alloc: Global, literals: &[Literal]) -> Mem<Terms> {
    let mut terms = Terms::new(alloc);
    for literal in literals.iter().skip(1) {
        terms.push(literal.left.copy(alloc)?)?;
        terms.push(literal.right.copy(alloc)?)?;
    }
    Ok(terms)
}

/// How often the term is greater, of so many questions.
fn whole(left: &Term, right: &Term, terms: &Terms) -> u64 {
    let mut found: u64 = 0;
    for _ in 0..BATCH {
        found = found.saturating_add(u64::from(compare_under(left, &Unbound, right, terms).is_greater()));
    }
    found
}

fn one_way(left: &Term, right: &Term, terms: &Terms) -> u64 {
    let mut found: u64 = 0;
    for _ in 0..BATCH {
        found = found.saturating_add(u64::from(greater_under(left, &Unbound, right, terms)));
    }
    found
}

fn told(left: &Term, right: &Term, terms: &Terms) -> u64 {
    let mut found: u64 = 0;
    for _ in 0..BATCH {
        found = found.saturating_add(u64::from(greater_at_equal_sizes(left, &Unbound, right, terms)));
    }
    found
}

/// Tenths of a ns of a question.
fn tenths(best: u128) -> u128 {
    best.saturating_mul(10).checked_div(u128::from(BATCH)).unwrap_or(0)
}

fn row(rt: &HostRuntime, name: &str, left: &Term, right: &Term, terms: &Terms) -> io::Result<()> {
    let left_size = instance_size(left, &Unbound);
    let right_size = instance_size(right, terms);
    if left_size >= COMPARED_SIZE_LIMIT || right_size >= COMPARED_SIZE_LIMIT {
        return Ok(());
    }
    let same = left_size == right_size;
    let mut least = [u128::MAX; 3];
    let mut found = [0; 3];
    for _ in 0..BATCHES {
        let start = Instant::now(rt)?;
        found[0] = whole(left, right, terms);
        let first = start.elapsed(rt)?.as_nanos();
        let start = Instant::now(rt)?;
        found[1] = one_way(left, right, terms);
        let second = start.elapsed(rt)?.as_nanos();
        let start = Instant::now(rt)?;
        if same {
            found[2] = told(left, right, terms);
        }
        let third = start.elapsed(rt)?.as_nanos();
        least = [least[0].min(first), least[1].min(second), least[2].min(third)];
    }
    println!(rt; "{name}, {left_size} and {right_size} symbols: whole {}, one way {}, told {} tenths of a ns; greater {}, {}, {}",
        tenths(least[0]), tenths(least[1]), tenths(least[2]), found[0], found[1], found[2])?;
    Ok(())
}

fn main(rt: HostRuntime) -> io::Result<()> {
    for (name, text) in ROWS {
        let Ok(read) = clause(rt.alloc(), text) else {
            return Ok(());
        };
        let literals = read.literals.as_slice();
        let Ok(terms) = put_in(rt.alloc(), literals) else {
            return Ok(());
        };
        let Some(first) = literals.first() else {
            return Ok(());
        };
        row(&rt, name, &first.left, &first.right, &terms)?;
    }
    Ok(())
}
