// Rounds of one worker on a problem whose conclusions are split, and how much of their time the solver's jobs take. The problem has rules
// `~r(X) | p(X) | q(X)`, each with a p and a q of its own, and units `r(c)`, each with a constant of its own. A rule and a unit have one conclusion, which
// falls into two parts. So there are as many clauses over names as there are pairs of a rule and a unit, and about as many jobs of the solver as there are
// units. With a word on the command line every other unit is preceded by a clause `~p(c) | ~q(c)` for the first rule, so that models change.
// It stands as `src/main.rt` in a crate over the crates that it names.
#![tactic(auto)]

use fol_base::{Clause, Clauses, Literal, Literals, Term, Terms};
use given_work::{Index, work};
use literal_selection::Selection;
use plain_types::{Mem, Names, NoMemory};
use pool_core::{Back, Claimed, Options, Pool, Ticket};
use std::alloc::Global;
use std::env;
use std::process::ExitCode;
use std::sync::Wait;
use std::time::Instant;
use term_bank::Bank;
use worker_team::{LastModel, solve_ticket};

const RULES: u32 = 33;
const UNITS: u32 = 300;

const OPTIONS: Options = Options {
    select: Selection::Negative,
    split: true,
    inferences: 1_000_000,
};

const TRUTH: u32 = 0;
const MARK: u32 = 1;
/// The predicates of the rules come from here on, two for each, then the constants.
const PREDICATES: u32 = 2;
const CONSTANTS: u32 = PREDICATES + 2 * RULES;

/// What was counted, and the times in nanoseconds.
#[derive(Drop)]
struct Figures {
    claims: u64,
    solves: u64,
    clauses: usize,
    solving: u64,
    all: u64,
}

fn atom(alloc: Global, positive: bool, predicate: u32, argument: Term) -> Mem<Literal> {
    let mut arguments = Terms::new(alloc);
    arguments.push(argument)?;
    Ok(Literal {
        positive,
        left: Term::App(predicate, arguments),
        right: Term::App(TRUTH, Terms::new(alloc)),
    })
}

fn clause_of(alloc: Global, literals: Literals) -> Clause {
    Clause {
        literals,
        names: Names::new(alloc),
    }
}

/// `~r(X) | p(X) | q(X)`.
fn rule(alloc: Global, number: u32) -> Mem<Clause> {
    let mut literals = Literals::new(alloc);
    literals.push(atom(alloc, false, MARK, Term::Var(0))?)?;
    literals.push(atom(alloc, true, PREDICATES + 2 * number, Term::Var(0))?)?;
    literals.push(atom(alloc, true, PREDICATES + 2 * number + 1, Term::Var(0))?)?;
    Ok(clause_of(alloc, literals))
}

fn constant(alloc: Global, number: u32) -> Term {
    Term::App(CONSTANTS + number, Terms::new(alloc))
}

/// `r(c)`.
fn unit(alloc: Global, number: u32) -> Mem<Clause> {
    let mut literals = Literals::new(alloc);
    literals.push(atom(alloc, true, MARK, constant(alloc, number))?)?;
    Ok(clause_of(alloc, literals))
}

/// `~p(c) | ~q(c)`, of the first rule.
fn denial(alloc: Global, number: u32) -> Mem<Clause> {
    let mut literals = Literals::new(alloc);
    literals.push(atom(alloc, false, PREDICATES, constant(alloc, number))?)?;
    literals.push(atom(alloc, false, PREDICATES + 1, constant(alloc, number))?)?;
    Ok(clause_of(alloc, literals))
}

fn inputs(alloc: Global, has_denials: bool) -> Mem<Clauses> {
    let mut clauses = Clauses::new(alloc);
    for number in 0..RULES {
        clauses.push(rule(alloc, number)?)?;
    }
    for number in 0..UNITS {
        if has_denials && number.is_multiple_of(2) {
            clauses.push(denial(alloc, number)?)?;
        }
        clauses.push(unit(alloc, number)?)?;
    }
    Ok(clauses)
}

/// The nanoseconds since a moment, or 0 where the clock fails.
fn since(rt: &HostRuntime, start: &Instant) -> u64 {
    match start.elapsed(rt) {
        Ok(time) => u64::try_from(time.as_nanos()).unwrap_or(u64::MAX),
        Err(_) => 0,
    }
}

fn finish<R: Wait>(wait: &R, alloc: Global, bank: &Bank, pool: &mut Pool, index: Index, ticket: Ticket) -> Mem<Index> {
    let mut index = index;
    let mut ticket = ticket;
    loop {
        index = index.learn(alloc, bank, &ticket.news, ticket.as_of)?;
        let batch = work(alloc, bank, &ticket, &index)?;
        match pool.give_back(wait, alloc, bank, batch, index.told()) {
            Ok(Back::Stale { ticket: next, .. }) => ticket = next,
            Ok(_) => return Ok(index),
            Err(_) => return Err(NoMemory),
        }
    }
}

fn rounds<R: Wait>(wait: &R, rt: &HostRuntime, inputs: &Clauses) -> Mem<Figures> {
    let alloc = rt.alloc();
    let (bank, table) = Bank::new(alloc)?;
    let mut figures = Figures {
        claims: 0,
        solves: 0,
        clauses: 0,
        solving: 0,
        all: 0,
    };
    let Ok(begin) = Instant::now(rt) else {
        return Ok(figures);
    };
    let mut pool = Pool::new(wait, alloc, &bank, table, inputs, OPTIONS)?;
    let mut index = Index::new(alloc, OPTIONS)?;
    let mut last = LastModel::new(alloc);
    loop {
        let Ok(start) = Instant::now(rt) else {
            return Ok(figures);
        };
        match pool.claim(alloc, index.told())? {
            Claimed::Ended(_) | Claimed::Idle(_) => break,
            Claimed::Given(ticket) => {
                figures.claims += 1;
                index = finish(wait, alloc, &bank, &mut pool, index, ticket)?;
            }
            Claimed::Solve(ticket) => {
                figures.solves += 1;
                figures.clauses = ticket.clauses.len();
                let solved = solve_ticket(alloc, &ticket, last)?;
                last = solved.last;
                if pool.give_model(alloc, ticket, solved.answer).is_err() {
                    return Err(NoMemory);
                }
                figures.solving += since(rt, &start);
            }
        }
    }
    figures.all = since(rt, &begin);
    Ok(figures)
}

fn run<R: Wait>(wait: &R, rt: &HostRuntime) -> Mem<()> {
    let has_denials = match env::args(rt) {
        Ok(arguments) => arguments.count() > 1,
        Err(_) => false,
    };
    let figures = rounds(wait, rt, &inputs(rt.alloc(), has_denials)?)?;
    let share = figures.solving * 100 / figures.all.max(1);
    let _ = println!(rt; "{} claims, {} solves, {} clauses over names", figures.claims, figures.solves, figures.clauses);
    let _ = println!(rt; "{} us of {} us in the solver's jobs, {share} %", figures.solving / 1000, figures.all / 1000);
    Ok(())
}

fn main(rt: HostRuntime) -> ExitCode {
    match run(&rt, &rt) {
        Ok(()) => ExitCode::SUCCESS,
        Err(_) => ExitCode::from(7),
    }
}
