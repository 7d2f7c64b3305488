// Random clauses of three names each that have a model. It tells the time of a copy of them, of the test of a model, and of `solve_from` with a model
// that already holds, each the best of so many rounds. It stands as `src/main.rt` in a crate over `plain_types`, `sample` and `sat_core`.
#![tactic(auto)]

use plain_types::{Mem, NameLit};
use sample::Random;
use sat_core::{Answer, PropClauses, are_true, names_are_below, solve, solve_from};
use std::alloc::Global;
use std::process::ExitCode;
use std::time::Instant;

/// How many clauses, and over how many names.
const SIZES: [(u32, u32); 2] = [(5_000, 2_500), (20_000, 8_000)];

const ROUNDS: u32 = 50;

fn random_literal(random: &mut Random, names: u32) -> NameLit {
    NameLit {
        positive: random.below(2) == 0,
        name: random.below(u64::from(names)) as u32,
    }
}

fn random_clauses(alloc: Global, count: u32, names: u32) -> Mem<PropClauses> {
    let mut random = Random::new(7_919);
    let mut clauses = PropClauses::new(alloc);
    for _ in 0..count {
        let clause = [
            random_literal(&mut random, names),
            random_literal(&mut random, names),
            random_literal(&mut random, names),
        ];
        clauses.push(&clause)?;
    }
    Ok(clauses)
}

/// The least time of a call in microseconds.
fn least_time<F: Fn() -> Mem<()>>(rt: &HostRuntime, call: F) -> Mem<u64> {
    let mut least = u64::MAX;
    for _ in 0..ROUNDS {
        if let Ok(start) = Instant::now(rt) {
            call()?;
            if let Ok(time) = start.elapsed(rt) {
                least = least.min(u64::try_from(time.as_micros()).unwrap_or(u64::MAX));
            }
        }
    }
    Ok(least)
}

fn measure(rt: &HostRuntime, count: u32, names: u32) -> Mem<()> {
    let alloc = rt.alloc();
    let clauses = random_clauses(alloc, count, names)?;
    if !names_are_below(&clauses, names) {
        return Ok(());
    }
    let Answer::Model(truths) = solve(alloc, &clauses, names)? else {
        let _ = println!(rt; "{count} clauses, {names} names: no model");
        return Ok(());
    };
    let copy = least_time(rt, || {
        let _ = clauses.copy(alloc)?;
        Ok(())
    })?;
    let test = least_time(rt, || {
        let _ = are_true(&clauses, 0, truths.as_slice());
        Ok(())
    })?;
    let held = least_time(rt, || {
        let _ = solve_from(alloc, &clauses, names, truths.as_slice())?;
        Ok(())
    })?;
    let _ = println!(rt; "{count} clauses, {names} names: copy {copy} us, test {test} us, solve_from with a model that holds {held} us");
    Ok(())
}

fn run(rt: &HostRuntime) -> Mem<()> {
    for (count, names) in SIZES {
        measure(rt, count, names)?;
    }
    Ok(())
}

fn main(rt: HostRuntime) -> ExitCode {
    match run(&rt) {
        Ok(()) => ExitCode::SUCCESS,
        Err(_) => ExitCode::from(7),
    }
}
