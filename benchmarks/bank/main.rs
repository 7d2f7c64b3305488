// Interns 100,000 random terms once for each word of the command line. Each loop has the invariant that the table is of the bank.
#![tactic(auto)]

ghost use Rattle.term_bank.specs.Table.{IsTableOf};

use fol_base::Term;
use plain_types::Mem;
use sample::Random;
use sample::random_terms;
use std::alloc::Global;
use std::env;
use std::process::ExitCode;
use std::sync::Wait;
use term_bank::{Bank, Table};

const TERMS: u64 = 100_000;

/// Interns the terms, and tells the last one's number.
fn interned<R: Wait>(
    rt: &R,
    alloc: Global,
    bank: &Bank,
    table: &mut Table,
    terms: &[Term],
) -> Mem<u64>
    requires { IsTableOf bank.now table.old }
    ensures { IsTableOf bank.now table.new }
{
    let mut last = 0;
    for term in terms {
        last = bank.intern(rt, alloc, table, term)?.number();
    }
    Ok(last)
}

/// Interns the terms so often.
fn interned_often<R: Wait>(
    rt: &R,
    alloc: Global,
    bank: &Bank,
    table: &mut Table,
    terms: &[Term],
    rounds: u32,
) -> Mem<()>
    requires { IsTableOf bank.now table.old }
{
    for _ in 0..rounds {
        interned(rt, alloc, bank, table, terms)?;
    }
    Ok(())
}

/// Makes the terms, and interns them so often.
fn run<R: Wait>(rt: &R, alloc: Global, rounds: u32) -> Mem<()> {
    let terms = random_terms(alloc, &mut Random::new(1), TERMS)?;
    let (bank, mut table) = Bank::new(alloc)?;
    interned_often(rt, alloc, &bank, &mut table, terms.as_slice(), rounds)
}

fn main(rt: HostRuntime) -> ExitCode {
    let mut rounds: u32 = 0;
    if let Ok(words) = env::args(&rt) {
        for _word in words.skip(1) {
            rounds = rounds.saturating_add(1);
        }
    }
    match run(&rt, rt.alloc(), rounds) {
        Ok(()) => ExitCode::SUCCESS,
        Err(_) => ExitCode::from(7),
    }
}
