// Times the comparison of terms of n symbols with many variables, or with as many words on the command line runs that row alone 10,000 times,
// so that its instructions can be counted (`valgrind --tool=callgrind`).
#![tactic(auto)]

use fol_base::{Term, Terms};
use kbo_order::{Cmp, compare};
use plain_types::Mem;
use std::alloc::Global;
use std::env;
use std::io;
use std::time::Instant;

/// Symbols of either term, and how many different variables it has.
const ROWS: [(u32, u32); 6] = [(20, 1), (20, 4), (20, 19), (1_000, 32), (1_000, 64), (1_000, 999)];

const BATCHES: u32 = 2_000;

/// Comparisons of terms of 20 symbols in a batch.
const SMALL_BATCH: u32 = 500;

/// And of those of 1,000.
const LARGE_BATCH: u32 = 10;

const COUNTED: u32 = 10_000;

/// A symbol over occurrences of different variables in turn.
fn over_variables(alloc: Global, head: u32, count: u32, different: u32) -> Mem<Term> {
    let mut arguments = Terms::new(alloc);
    for index in 0..count {
        arguments.push(Term::Var(index.checked_rem(different).unwrap_or(0)))?;
    }
    Ok(Term::App(head, arguments))
}

fn pair(alloc: Global, row: (u32, u32)) -> Mem<(Term, Term)> {
    let count = row.0.saturating_sub(1);
    let first = over_variables(alloc, 4, count, row.1)?;
    let second = over_variables(alloc, 3, count, row.1)?;
    Ok((first, second))
}

/// How often the first is greater, of so many comparisons.
fn greater_times(left: &Term, right: &Term, rounds: u32) -> u64 {
    let mut found: u64 = 0;
    for _ in 0..rounds {
        found = found.saturating_add(u64::from(compare(left, right) == Cmp::Greater));
    }
    found
}

fn timed(rt: &HostRuntime, row: (u32, u32), left: &Term, right: &Term) -> io::Result<()> {
    let batch = if row.0 > 100 { LARGE_BATCH } else { SMALL_BATCH };
    let mut best = u128::MAX;
    let mut found: u64 = 0;
    for _ in 0..BATCHES {
        let start = Instant::now(rt)?;
        found = found.saturating_add(greater_times(left, right, batch));
        let time = start.elapsed(rt)?.as_nanos();
        if time < best {
            best = time;
        }
    }
    let tenths = best.saturating_mul(10).checked_div(u128::from(batch)).unwrap_or(0);
    println!(rt; "{} symbols, {} variables: {tenths} tenths of a ns, {found} greater", row.0, row.1)?;
    Ok(())
}

fn main(rt: HostRuntime) -> io::Result<()> {
    let mut only: usize = 0;
    if let Ok(words) = env::args(&rt) {
        for _word in words.skip(1) {
            only = only.saturating_add(1);
        }
    }
    for index in 0..ROWS.len() {
        let Some(row) = ROWS.get(index) else {
            return Ok(());
        };
        let Ok((left, right)) = pair(rt.alloc(), *row) else {
            return Ok(());
        };
        if only == 0 {
            timed(&rt, *row, &left, &right)?;
        } else if only == index.saturating_add(1) {
            println!(rt; "{} greater", greater_times(&left, &right, COUNTED))?;
        }
    }
    Ok(())
}
