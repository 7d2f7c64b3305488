// Claims and returns of a pool: batches of made-up entries, each with a result of 25 symbols of its own. The last digit of the number of words
// on the command line tells what is timed: 1, `claim` and `give_back`; 2, the making of the batches; 3, the interning of as many clauses; 4, 5
// and 6 the same of clauses whose function symbols have two arguments, where those before have one. There is a batch of 1,000 entries for each
// of the other words. The batches aren't right ones, so it can't be proved.
#![tactic(auto)]

use bank_clause::BankClause;
use fol_base::{Clause, Clauses, Literal, Literals, Term, Terms};
use kernel_steps::{Derivation, Key, Line, Step};
use literal_selection::Selection;
use plain_types::{Mem, Names, NoMemory};
use pool_core::{Back, Batch, Claimed, Entry, Fate, MetEntries, Options, Pool, Removals, Work};
use std::alloc::Global;
use std::env;
use std::process::ExitCode;
use std::sync::Wait;
use std::time::Instant;
use term_bank::Bank;

/// A clause has the predicate, `$true` and so many symbols of a term.
const TERM_SYMBOLS: u32 = 23;

/// So many symbols of two arguments has such a term, and one constant more.
const PAIRS: u32 = 11;

/// So many entries has a batch.
const ENTRIES: u64 = 1_000;

const TRUTH: u32 = 0;
const CONSTANT: u32 = 1;
const ZERO: u32 = 2;
const ONE: u32 = 3;
const PREDICATE: u32 = 4;
const PAIR: u32 = 5;
const FIRST_DIGIT: u32 = 6;

/// What the terms are of.
#[derive(Clone, Copy)]
enum Shape {
    /// Symbols of one argument: no list of terms is shorter, so no term takes more memory.
    Tower,
    /// Symbols of two arguments, of which the first is a constant.
    Comb,
}

fn applied(alloc: Global, symbol: u32, argument: Term) -> Mem<Term> {
    let mut arguments = Terms::new(alloc);
    arguments.push(argument)?;
    Ok(Term::App(symbol, arguments))
}

fn constant(alloc: Global, symbol: u32) -> Term {
    Term::App(symbol, Terms::new(alloc))
}

/// The binary digits of the number, the last one outermost.
fn tower(alloc: Global, number: u64) -> Mem<Term> {
    let mut term = constant(alloc, CONSTANT);
    for place in 1..TERM_SYMBOLS {
        let bit = (number >> (TERM_SYMBOLS - 1 - place)) & 1;
        term = applied(alloc, if bit == 0 { ZERO } else { ONE }, term)?;
    }
    Ok(term)
}

/// The digits of the number to the base 4, the last one outermost.
fn comb(alloc: Global, number: u64) -> Mem<Term> {
    let mut term = constant(alloc, CONSTANT);
    for place in 0..PAIRS {
        let digit = (number >> (2 * (PAIRS - 1 - place))) & 3;
        let mut arguments = Terms::new(alloc);
        arguments.push(constant(alloc, FIRST_DIGIT + digit as u32))?;
        arguments.push(term)?;
        term = Term::App(PAIR, arguments);
    }
    Ok(term)
}

/// A clause of its own for each number.
fn numbered(alloc: Global, shape: Shape, number: u64) -> Mem<Clause> {
    let term = match shape {
        Shape::Tower => tower(alloc, number)?,
        Shape::Comb => comb(alloc, number)?,
    };
    let mut literals = Literals::new(alloc);
    literals.push(Literal {
        positive: true,
        left: applied(alloc, PREDICATE, term)?,
        right: constant(alloc, TRUTH),
    })?;
    Ok(Clause {
        literals,
        names: Names::new(alloc),
    })
}

fn entry(alloc: Global, shape: Shape, given: u32, number: u64) -> Mem<Entry> {
    let mut lines = Derivation::new(alloc);
    lines.push(Line {
        step: Step::Refl {
            parent: u64::from(given),
            literal: number,
            bind: Terms::new(alloc),
        },
        clause: numbered(alloc, shape, number)?,
    })?;
    let mut results = Clauses::new(alloc);
    results.push(numbered(alloc, shape, number)?)?;
    Ok(Entry {
        key: Key::Refl {
            clause: given,
            literal: number,
        },
        fate: Fate::Kept { lines, results },
    })
}

fn batch(alloc: Global, shape: Shape, job: u64, given: u32, first: u64, count: u64) -> Mem<Batch> {
    let mut entries = MetEntries::new(alloc);
    for number in first..first + count {
        entries.push(entry(alloc, shape, given, number)?)?;
    }
    Ok(Batch {
        job,
        work: Work::Met {
            entries,
            removals: Removals::new(alloc),
        },
    })
}

fn nanoseconds(since: Instant, until: Instant) -> u128 {
    until.duration_since(since).as_nanos()
}

/// The time of the claims and returns of so many batches, without the making of them.
fn time_of_pool<R: Wait>(clock: &HostRuntime, rt: &R, alloc: Global, shape: Shape, batches: u64) -> Mem<u128> {
    let (bank, table) = Bank::new(alloc)?;
    let mut inputs = Clauses::new(alloc);
    inputs.push(numbered(alloc, shape, ENTRIES * batches)?)?;
    let options = Options {
        select: Selection::Nothing,
        split: false,
        inferences: 4_000_000,
    };
    let mut pool = Pool::new(rt, alloc, &bank, table, &inputs, options)?;
    let mut spent = 0;
    for turn in 0..batches {
        let start = now(clock)?;
        let Claimed::Given(ticket) = pool.claim(alloc, pool.history().len())? else {
            return Err(NoMemory);
        };
        let claimed = now(clock)?;
        let made = batch(alloc, shape, ticket.job, ticket.number, turn * ENTRIES, ENTRIES)?;
        let told = pool.history().len();
        let given = now(clock)?;
        let Back::Taken = pool.give_back(rt, alloc, &bank, made, told)? else {
            return Err(NoMemory);
        };
        let taken = now(clock)?;
        spent += nanoseconds(start, claimed) + nanoseconds(given, taken);
    }
    Ok(spent)
}

/// The time of the interning of as many clauses, without the making of them.
fn time_of_interning<R: Wait>(clock: &HostRuntime, rt: &R, alloc: Global, shape: Shape, count: u64) -> Mem<u128> {
    let (bank, table) = Bank::new(alloc)?;
    let mut table = table;
    let mut clauses = Clauses::new(alloc);
    for number in 0..count {
        clauses.push(numbered(alloc, shape, number)?)?;
    }
    let mut interned = Vec::new(alloc);
    let start = now(clock)?;
    for clause in clauses.as_slice() {
        interned.push(BankClause::of_clause(rt, alloc, &bank, &mut table, clause)?)?;
    }
    Ok(nanoseconds(start, now(clock)?))
}

fn now(clock: &HostRuntime) -> Mem<Instant> {
    match Instant::now(clock) {
        Ok(time) => Ok(time),
        Err(_) => Err(NoMemory),
    }
}

/// The made batches alone.
fn time_of_making(clock: &HostRuntime, alloc: Global, shape: Shape, batches: u64) -> Mem<u128> {
    let mut spent = 0;
    for turn in 0..batches {
        let start = now(clock)?;
        let _made = batch(alloc, shape, 1, 0, turn * ENTRIES, ENTRIES)?;
        spent += nanoseconds(start, now(clock)?);
    }
    Ok(spent)
}

fn main(rt: HostRuntime) -> ExitCode {
    let alloc = rt.alloc();
    let mut batches: u64 = 0;
    if let Ok(words) = env::args(&rt) {
        for _word in words.skip(1) {
            batches = batches.saturating_add(1);
        }
    }
    let mode = batches % 10;
    let batches = batches - mode;
    let entries = batches.saturating_mul(ENTRIES);
    let shape = if mode > 3 { Shape::Comb } else { Shape::Tower };
    let time = match mode {
        1 | 4 => time_of_pool(&rt, &rt, alloc, shape, batches),
        2 | 5 => time_of_making(&rt, alloc, shape, batches),
        _ => time_of_interning(&rt, &rt, alloc, shape, entries),
    };
    let Ok(time) = time else { return ExitCode::from(7); };
    match println!(rt; "{mode}: {entries} entries: {time} ns") {
        Ok(()) => ExitCode::SUCCESS,
        Err(_) => ExitCode::from(8),
    }
}
