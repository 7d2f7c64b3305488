// The components of clauses of n literals: `p(X0,X1), p(X1,X2), ..`, which are one part, and `p(X0,X0), p(X1,X1), ..`, which are n parts.
// It tells the time of a call for each literal, the best of so many rounds. Then the names of n different parts: of ground literals, each
// followed by its complement, and of pairs of literals that share a variable. It tells the time for each part.
#![tactic(auto)]

use fol_base::{Clause, Literal, Literals, Term};
use plain_types::{Mem, Names};
use sample::{binary, constant};
use split_parts::{NameTable, components};
use std::alloc::Global;
use std::process::ExitCode;
use std::time::Instant;

const COUNTS: [u32; 5] = [4, 32, 1_000, 32_000, 1_000_000];

const TABLES: [u32; 4] = [1_000, 10_000, 100_000, 1_000_000];

/// How many literals are split, or parts named, in all, for each count.
const LITERALS: u32 = 4_000_000;

/// A clause whose literals have the variables of two places each, `step` apart.
fn clause(alloc: Global, count: u32, step: u32) -> Mem<Clause> {
    let mut literals = Literals::new(alloc);
    for place in 0..count {
        literals.push(Literal {
            positive: true,
            left: binary(alloc, 18, Term::Var(place), Term::Var(place.saturating_add(step)))?,
            right: constant(alloc, 0),
        })?;
    }
    Ok(Clause {
        literals,
        names: Names::new(alloc),
    })
}

/// `p(c,k)`, or its complement.
fn ground_part(alloc: Global, number: u32) -> Mem<Clause> {
    let mut literals = Literals::new(alloc);
    literals.push(Literal {
        positive: number.is_multiple_of(2),
        left: binary(alloc, 18, constant(alloc, 100 + number / 2), constant(alloc, 99))?,
        right: constant(alloc, 0),
    })?;
    Ok(Clause {
        literals,
        names: Names::new(alloc),
    })
}

/// `p(c,X0), p(X0,c)`.
fn pair_part(alloc: Global, number: u32) -> Mem<Clause> {
    let mut literals = Literals::new(alloc);
    for (first, second) in [(constant(alloc, 100 + number), Term::Var(0)), (Term::Var(0), constant(alloc, 100 + number))] {
        literals.push(Literal {
            positive: true,
            left: binary(alloc, 18, first, second)?,
            right: constant(alloc, 0),
        })?;
    }
    Ok(Clause {
        literals,
        names: Names::new(alloc),
    })
}

/// The names of different parts, in a table that was empty.
fn measure_names(rt: &HostRuntime, count: u32, kind: &str, part: fn(Global, u32) -> Mem<Clause>) -> Mem<()> {
    let alloc = rt.alloc();
    let mut parts = Vec::with_capacity(alloc, count as usize)?;
    for number in 0..count {
        parts.push(part(alloc, number)?)?;
    }
    let mut least = u64::MAX;
    let mut names = 0;
    for _ in 0..LITERALS / count.max(1) {
        let mut table = NameTable::new(alloc);
        if let Ok(start) = Instant::now(rt) {
            for part in &parts {
                table.name_of(alloc, part)?;
            }
            if let Ok(time) = start.elapsed(rt) {
                least = least.min(u64::try_from(time.as_nanos()).unwrap_or(u64::MAX));
            }
        }
        names = table.names();
    }
    let each = least / u64::from(count.max(1));
    let _ = println!(rt; "{count} {kind}, {names} names: {each} ns a part");
    Ok(())
}

fn measure(rt: &HostRuntime, count: u32, step: u32) -> Mem<()> {
    let alloc = rt.alloc();
    let clause = clause(alloc, count, step)?;
    let mut least = u64::MAX;
    let mut parts = 0;
    for _ in 0..(LITERALS / count.max(1)).min(1_000) {
        if let Ok(start) = Instant::now(rt) {
            parts = components(alloc, &clause)?.as_slice().len();
            if let Ok(time) = start.elapsed(rt) {
                least = least.min(u64::try_from(time.as_nanos()).unwrap_or(u64::MAX));
            }
        }
    }
    let each = least / u64::from(count.max(1));
    let _ = println!(rt; "{count} literals, {parts} parts: {each} ns a literal");
    Ok(())
}

fn run(rt: &HostRuntime) -> Mem<()> {
    for count in COUNTS {
        measure(rt, count, 1)?;
        measure(rt, count, 0)?;
    }
    for count in TABLES {
        measure_names(rt, count, "ground parts", ground_part)?;
        measure_names(rt, count, "pairs", pair_part)?;
    }
    Ok(())
}

fn main(rt: HostRuntime) -> ExitCode {
    match run(&rt) {
        Ok(()) => ExitCode::SUCCESS,
        Err(_) => ExitCode::from(7),
    }
}
