// Times the comparison of two terms, of two literals of a predicate, and of two clauses, as they stand and under substitutions.
#![tactic(auto)]

use fol_base::{Clause, LiteralRef, Term, Terms};
use kbo_order::{COMPARED_SIZE_LIMIT, Cmp, compare, compare_clauses, compare_clauses_under, compare_literals};
use plain_types::Mem;
use sample::{binary, clause, constant, unary};
use std::alloc::Global;
use std::io;
use std::time::Instant;

fn tower(alloc: Global, height: u32, last: u32) -> Mem<Term> {
    let mut made = constant(alloc, last);
    for _ in 0..height {
        made = unary(alloc, 3, made)?;
    }
    Ok(made)
}

/// A full binary tree of that depth, the last leaf of which is given.
fn balanced(alloc: Global, depth: u32, last: u32) -> Mem<Term> {
    let mut whole = constant(alloc, 1);
    let mut edge = constant(alloc, last);
    for _ in 0..depth {
        edge = binary(alloc, 3, whole.copy(alloc)?, edge)?;
        whole = binary(alloc, 3, whole.copy(alloc)?, whole)?;
    }
    Ok(edge)
}

fn wide(alloc: Global, count: u32, last: u32) -> Mem<Term> {
    let mut arguments = Terms::new(alloc);
    for _ in 1..count {
        arguments.push(constant(alloc, 1))?;
    }
    arguments.push(constant(alloc, last))?;
    Ok(Term::App(3, arguments))
}

/// A symbol over that many occurrences of different variables in turn.
fn over_variables(alloc: Global, head: u32, count: u32, different: u32) -> Mem<Term> {
    let mut arguments = Terms::new(alloc);
    for index in 0..count {
        arguments.push(Term::Var(index.checked_rem(different).unwrap_or(0)))?;
    }
    Ok(Term::App(head, arguments))
}

/// How often the first is greater, of so many comparisons.
fn greater_times(left: &Term, right: &Term, rounds: u64) -> u64 {
    let mut found: u64 = 0;
    if left.size() < COMPARED_SIZE_LIMIT && right.size() < COMPARED_SIZE_LIMIT {
        for _ in 0..rounds {
            found = found.saturating_add(u64::from(compare(left, right) == Cmp::Greater));
        }
    }
    found
}

fn greater_literals(left: &Term, right: &Term, truth: &Term, rounds: u64) -> u64 {
    let first = LiteralRef {
        positive: true,
        left,
        right: truth,
    };
    let second = LiteralRef {
        positive: true,
        left: right,
        right: truth,
    };
    let mut found: u64 = 0;
    if first.size() < COMPARED_SIZE_LIMIT && second.size() < COMPARED_SIZE_LIMIT {
        for _ in 0..rounds {
            found = found.saturating_add(u64::from(compare_literals(first, second) == Cmp::Greater));
        }
    }
    found
}

fn row(rt: &HostRuntime, name: &str, pair: Mem<(Term, Term)>, rounds: u64) -> io::Result<()> {
    let Ok((left, right)) = pair else {
        println!(rt; "no memory")?;
        return Ok(());
    };
    let mut best = u128::MAX;
    let batch = rounds.checked_div(1_000).unwrap_or(1);
    for _ in 0..1_000 {
        let start = Instant::now(rt)?;
        greater_times(&left, &right, batch);
        let time = start.elapsed(rt)?.as_nanos();
        if time < best {
            best = time;
        }
    }
    let each = best.checked_div(u128::from(batch)).unwrap_or(0);
    println!(rt; "{name}: {each} ns")?;
    Ok(())
}

fn literal_row(rt: &HostRuntime, name: &str, pair: Mem<(Term, Term)>, rounds: u64) -> io::Result<()> {
    let alloc = rt.alloc();
    let Ok((left, right)) = pair else {
        println!(rt; "no memory")?;
        return Ok(());
    };
    let truth = Term::truth(alloc);
    let mut best = u128::MAX;
    let batch = rounds.checked_div(1_000).unwrap_or(1);
    for _ in 0..1_000 {
        let start = Instant::now(rt)?;
        greater_literals(&left, &right, &truth, batch);
        let time = start.elapsed(rt)?.as_nanos();
        if time < best {
            best = time;
        }
    }
    let each = best.checked_div(u128::from(batch)).unwrap_or(0);
    println!(rt; "literals {name}: {each} ns")?;
    Ok(())
}

/// How often the first clause is greater as it stands, or under the terms, of so many comparisons.
fn greater_clauses(left: &Clause, right: &Clause, terms: Option<&Terms>, rounds: u64) -> u64 {
    let mut found: u64 = 0;
    for _ in 0..rounds {
        let answer = match terms {
            Some(terms) => compare_clauses_under(&left.literals, terms, &right.literals, terms),
            None => compare_clauses(&left.literals, &right.literals),
        };
        found = found.saturating_add(u64::from(answer == Cmp::Greater));
    }
    found
}

fn clause_row(rt: &HostRuntime, name: &str, texts: (&str, &str), terms: Option<&Terms>) -> io::Result<()> {
    let (Ok(left), Ok(right)) = (clause(rt.alloc(), texts.0), clause(rt.alloc(), texts.1)) else {
        println!(rt; "no memory")?;
        return Ok(());
    };
    let mut best = u128::MAX;
    for _ in 0..1_000 {
        let start = Instant::now(rt)?;
        greater_clauses(&left, &right, terms, 500);
        let time = start.elapsed(rt)?.as_nanos();
        if time < best {
            best = time;
        }
    }
    let each = best.checked_div(500).unwrap_or(0);
    println!(rt; "clauses {name}: {each} ns")?;
    Ok(())
}

fn clause_rows(rt: &HostRuntime, terms: &Terms) -> io::Result<()> {
    let whole = "p(f(X0,g(X1))) | q(f(g(X0),X2)) | p(f(a,b)) | f(X0,X1) = f(g(a),b)";
    let turned = "f(g(a),b) = f(X0,X1) | p(f(a,b)) | q(f(g(X0),X2)) | p(f(X0,g(X1)))";
    let smaller = "p(f(X0,g(X1))) | q(f(g(X0),X2)) | p(f(a,b)) | f(X0,X1) = f(a,b)";
    clause_row(rt, "equal", (whole, turned), None)?;
    clause_row(rt, "greater", (whole, smaller), None)?;
    clause_row(rt, "equal, under terms", (whole, turned), Some(terms))?;
    clause_row(rt, "greater, under terms", (whole, smaller), Some(terms))?;
    Ok(())
}

fn towers(alloc: Global, size: u32) -> Mem<(Term, Term)> {
    let first = tower(alloc, size, 2)?;
    let second = tower(alloc, size, 1)?;
    Ok((first, second))
}

fn trees(alloc: Global, depth: u32) -> Mem<(Term, Term)> {
    let first = balanced(alloc, depth, 2)?;
    let second = balanced(alloc, depth, 1)?;
    Ok((first, second))
}

fn rows_of_constants(alloc: Global, size: u32) -> Mem<(Term, Term)> {
    let first = wide(alloc, size, 2)?;
    let second = wide(alloc, size, 1)?;
    Ok((first, second))
}

fn rows_of_variables(alloc: Global, size: u32, different: u32) -> Mem<(Term, Term)> {
    let first = over_variables(alloc, 4, size, different)?;
    let second = over_variables(alloc, 3, size, different)?;
    Ok((first, second))
}

fn main(rt: HostRuntime) -> io::Result<()> {
    let alloc = rt.alloc();
    row(&rt, "towers 20", towers(alloc, 19), 2000000)?;
    row(&rt, "balanced 15", trees(alloc, 3), 2000000)?;
    row(&rt, "last argument 20", rows_of_constants(alloc, 19), 2000000)?;
    row(&rt, "4 variables 20", rows_of_variables(alloc, 19, 4), 2000000)?;
    row(&rt, "19 variables 20", rows_of_variables(alloc, 19, 19), 2000000)?;
    row(&rt, "towers 1000", towers(alloc, 999), 20000)?;
    row(&rt, "balanced 1023", trees(alloc, 9), 20000)?;
    row(&rt, "last argument 1000", rows_of_constants(alloc, 999), 20000)?;
    row(&rt, "64 variables 1000", rows_of_variables(alloc, 999, 64), 20000)?;
    row(&rt, "999 variables 1000", rows_of_variables(alloc, 999, 999), 2000)?;
    literal_row(&rt, "towers 20", towers(alloc, 19), 1000000)?;
    literal_row(&rt, "4 variables 20", rows_of_variables(alloc, 19, 4), 1000000)?;
    let mut terms = Terms::new(alloc);
    for _ in 0..3 {
        let Ok(bound) = tower(alloc, 3, 1) else {
            return Ok(());
        };
        if terms.push(bound).is_err() {
            return Ok(());
        }
    }
    clause_rows(&rt, &terms)?;
    Ok(())
}
