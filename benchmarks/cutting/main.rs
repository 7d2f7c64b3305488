// A clause of one positive equation among 1,000 positive units that generalise its left side and can't cut it, since they have its sign: the
// search for a unit that cuts. It tells the time of a search, the best of so many rounds. As a crate it needs the invariant of the loop that
// makes the units: the table is of the bank, and so are the units, which have lower numbers.
#![tactic(auto)]

use bank_clause::{BankClause, Member};
use fol_base::{Clause, Literal, Literals, Term, canonical};
use plain_types::{Mem, Names};
use reduced_clause::unreduced;
use sample::Random;
use sample::{binary, constant, random_term};
use std::alloc::Global;
use std::process::ExitCode;
use std::sync::Wait;
use std::time::Instant;
use term_bank::Bank;
use unit_cutting::UnitIndex;

const UNITS: u32 = 1_000;

const ROUNDS: u32 = 300;

/// A canonical clause of one positive equation.
fn equation(alloc: Global, left: Term, right: Term) -> Mem<Clause> {
    let mut literals = Literals::new(alloc);
    literals.push(Literal {
        positive: true,
        left,
        right,
    })?;
    let clause = Clause {
        literals,
        names: Names::new(alloc),
    };
    let (clause, _) = canonical(alloc, &clause)?;
    Ok(clause)
}

fn run<R: Wait>(wait: &R, rt: &HostRuntime) -> Mem<()> {
    let alloc = rt.alloc();
    let (bank, mut table) = Bank::new(alloc)?;
    let mut random = Random::new(1);
    let mut units = UnitIndex::new(alloc)?;
    for number in 0..UNITS {
        let left = binary(alloc, 18, Term::Var(0), Term::Var(1))?;
        let clause = equation(alloc, left, random_term(alloc, &mut random, 9)?)?;
        let clause = BankClause::of_clause(wait, alloc, &bank, &mut table, &clause)?;
        units.insert(&bank, &Member { number, clause })?;
    }
    let left = binary(alloc, 18, constant(alloc, 4), constant(alloc, 5))?;
    let clause = equation(alloc, left, constant(alloc, 6))?;
    let mut reduced = unreduced(alloc, &clause)?;
    let mut least = u64::MAX;
    let mut found = 0;
    for _ in 0..ROUNDS {
        if let Ok(start) = Instant::now(rt) {
            if units.cut_once(alloc, &bank, None, &mut reduced)? {
                found += 1;
            }
            if let Ok(time) = start.elapsed(rt) {
                least = least.min(u64::try_from(time.as_nanos()).unwrap_or(u64::MAX));
            }
        }
    }
    let _ = println!(rt; "{UNITS} units of the clause's sign: {found} cuts, {least} ns a search");
    Ok(())
}

fn main(rt: HostRuntime) -> ExitCode {
    match run(&rt, &rt) {
        Ok(()) => ExitCode::SUCCESS,
        Err(_) => ExitCode::from(7),
    }
}
