// Clauses of 25 symbols that no unit rewrites, among 1,000 units: a search for a redex and a whole normal form, over the tree of the units' sides,
// and beside them a plain scan of the units at each subterm. It tells the time of a clause: the clauses are timed in short batches, and of each
// batch the best of so many rounds counts, since other processes interrupt the rest. With a word on its command line it leaves out the scan.
// As a crate it needs the invariant of the loop in `make_units`: the table is of the bank, and so are the units.
#![tactic(auto)]

ghost use Rattle.std.specs.Prelude.{IfOk};
ghost use Rattle.term_bank.specs.Table.{IsTableOf};
ghost use Rattle.rewriting.specs.Units.{AreClausesOf};

use bank_clause::{BankClause, Member};
use demodulate::normal_form;
use fol_base::{
    Clause, Literal, Literals, MOST_SYMBOLS, SIZE_LIMIT, Term, canonical, instance_size,
    is_canonical,
};
use kbo_order::{Unbound, greater_under};
use plain_types::{Mem, Names};
use rewriting::{Rewriters, Units, is_unit};
use sample::Random;
use sample::random_term;
use std::alloc::Global;
use std::env;
use std::process::ExitCode;
use std::sync::Wait;
use std::time::Instant;
use term_bank::{Bank, Table};
use unifier::{Matched, match_onto};

const UNITS: u32 = 1_000;

/// So many random clauses are made, at most.
const TRIED: u64 = 50_000;

/// So many that no unit rewrites are taken, at most.
const CLAUSES: usize = 1_000;

/// So many clauses are timed together.
const BATCH: usize = 25;

const ROUNDS: u32 = 50;

/// So many clauses are looked up by the plain scan, each a batch of its own.
const SCANNED: usize = 100;

const SCAN_ROUNDS: u32 = 5;

/// More nanoseconds than a batch takes.
const LONGEST: u64 = 1_000_000_000_000;

/// What is timed.
#[derive(Clone, Copy)]
enum Way {
    Search,
    NormalForm,
    PlainScan,
}

/// The clause of an equation, or of a disequation, of so many symbols on each side, canonical.
fn random_clause(
    alloc: Global,
    random: &mut Random,
    positive: bool,
    left: u64,
    right: u64,
) -> Mem<Clause> {
    let mut literals = Literals::new(alloc);
    literals.push(Literal {
        positive,
        left: random_term(alloc, random, left)?,
        right: random_term(alloc, random, right)?,
    })?;
    let clause = Clause {
        literals,
        names: Names::new(alloc),
    };
    let (clause, _) = canonical(alloc, &clause)?;
    Ok(clause)
}

fn random_unit(alloc: Global, random: &mut Random) -> Mem<Clause> {
    let size = 9 + random.below(7);
    random_clause(alloc, random, true, size, 3)
}

/// Adds the clause to the units, under a number, if it can be one.
fn add_unit<R: Wait>(
    rt: &R,
    alloc: Global,
    bank: &Bank,
    table: &mut Table,
    units: &mut Units,
    number: u32,
    clause: &Clause,
) -> Mem<()>
    requires table { IsTableOf bank.now table.old }
    requires units { AreClausesOf bank.now units.old }
    ensures table { IsTableOf bank.now table.new }
    ensures units { IfOk result (λ _. AreClausesOf bank.now units.new) }
{
    if !clause.names.is_empty() || !is_canonical(clause) || clause.size() >= SIZE_LIMIT {
        return Ok(());
    }
    let clause = BankClause::of_clause(rt, alloc, bank, table, clause)?;
    if !is_unit(&clause) {
        return Ok(());
    }
    units.remove(bank, number);
    units.insert(bank, &Member { number, clause })
}

/// Whether the left side of a clause's first equation is greater than the right one.
fn falls(clause: &Clause) -> bool {
    match clause.literals.as_slice().first() {
        Some(equation) => greater_under(&equation.left, &Unbound, &equation.right, &Unbound),
        None => false,
    }
}

/// Units of 9 to 15 symbols on the left side and three on the right one, and the list of their clauses. Where only those are wanted whose
/// left side is the greater one, the others are made again; else some rewrite from their right side, as `f(X0, X1) = t` does for a large
/// ground term `t`.
fn make_units<R: Wait>(
    rt: &R,
    alloc: Global,
    bank: &Bank,
    table: &mut Table,
    random: &mut Random,
    only_falling: bool,
    scanned: &mut Vec<Clause>,
) -> Mem<Units>
    requires { IsTableOf bank.now table.old }
    ensures { IfOk result (AreClausesOf bank.now) }
{
    let mut units = Units::new(alloc)?;
    for number in 0..UNITS {
        let mut clause = random_unit(alloc, random)?;
        while only_falling && !falls(&clause) {
            clause = random_unit(alloc, random)?;
        }
        add_unit(rt, alloc, bank, table, &mut units, number, &clause)?;
        scanned.push(clause)?;
    }
    Ok(units)
}

/// Whether the left side of some equation matches a term and the right side is smaller, by a scan. The left sides are the greater ones, so
/// no equation rewrites from right to left.
fn scan_at(alloc: Global, clauses: &[Clause], term: &Term) -> Mem<bool> {
    let size = term.size();
    for clause in clauses {
        if let Some(equation) = clause.literals.as_slice().first() {
            if let Some(terms) = match_onto(alloc, &equation.left, term, &Matched::empty(alloc))? {
                if size < SIZE_LIMIT
                    && instance_size(&equation.right, &terms) < SIZE_LIMIT
                    && greater_under(term, &Unbound, &equation.right, &terms)
                {
                    return Ok(true);
                }
            }
        }
    }
    Ok(false)
}

/// The same for all subterms.
fn scan(alloc: Global, clauses: &[Clause], term: &Term) -> Mem<bool> {
    match term {
        Term::Var(_) => Ok(false),
        Term::App(_, arguments) => {
            for argument in arguments.as_slice() {
                if scan(alloc, clauses, argument)? {
                    return Ok(true);
                }
            }
            scan_at(alloc, clauses, term)
        }
    }
}

/// Whether a unit rewrites a clause.
fn has_redex(alloc: Global, bank: &Bank, units: &Units, clause: &Clause) -> Mem<bool>
    requires { AreClausesOf bank.now units.now }
{
    if clause.size() > MOST_SYMBOLS {
        return Ok(true);
    }
    let by = Rewriters {
        units,
        bank,
        asserted: &[],
        left_out: None,
    };
    let found = by.find(alloc, &clause.literals)?;
    Ok(found.is_some())
}

/// How many lines lead to the normal form.
fn steps(alloc: Global, bank: &Bank, units: &Units, clause: &Clause) -> Mem<usize>
    requires { AreClausesOf bank.now units.now }
{
    if !clause.names.is_empty() || !is_canonical(clause) || clause.size() > MOST_SYMBOLS {
        return Ok(0);
    }
    let made = normal_form(alloc, bank, clause, units, None)?;
    Ok(made.lines.len())
}

/// Random clauses of 25 symbols that no unit rewrites.
fn normal_clauses(
    alloc: Global,
    bank: &Bank,
    units: &Units,
    random: &mut Random,
) -> Mem<Vec<Clause>>
    requires { AreClausesOf bank.now units.now }
{
    let mut clauses = Vec::new(alloc);
    for _ in 0..TRIED {
        let clause = random_clause(alloc, random, false, 13, 12)?;
        if clauses.len() < CLAUSES && !has_redex(alloc, bank, units, &clause)? {
            clauses.push(clause)?;
        }
    }
    Ok(clauses)
}

fn search_all(alloc: Global, bank: &Bank, units: &Units, clauses: &[Clause]) -> Mem<u64>
    requires { AreClausesOf bank.now units.now }
{
    let mut found = 0u64;
    for clause in clauses {
        if has_redex(alloc, bank, units, clause)? {
            found = found.saturating_add(1);
        }
    }
    Ok(found)
}

fn reduce_all(alloc: Global, bank: &Bank, units: &Units, clauses: &[Clause]) -> Mem<u64>
    requires { AreClausesOf bank.now units.now }
{
    let mut found = 0u64;
    for clause in clauses {
        found = found.saturating_add(steps(alloc, bank, units, clause)? as u64);
    }
    Ok(found)
}

fn scan_all(alloc: Global, units: &[Clause], clauses: &[Clause]) -> Mem<u64> {
    let mut found = 0u64;
    for clause in clauses {
        for literal in clause.literals.as_slice() {
            if scan(alloc, units, &literal.left)? || scan(alloc, units, &literal.right)? {
                found = found.saturating_add(1);
            }
        }
    }
    Ok(found)
}

/// How many redexes, or lines, the clauses have, by a way.
fn find_all(
    way: Way,
    alloc: Global,
    bank: &Bank,
    units: &Units,
    scanned: &[Clause],
    clauses: &[Clause],
) -> Mem<u64>
    requires { AreClausesOf bank.now units.now }
{
    match way {
        Way::Search => search_all(alloc, bank, units, clauses),
        Way::NormalForm => reduce_all(alloc, bank, units, clauses),
        Way::PlainScan => scan_all(alloc, scanned, clauses),
    }
}

/// The nanoseconds since then.
fn passed(rt: &HostRuntime, start: &Instant) -> u64 {
    match start.elapsed(rt) {
        Ok(time) => u64::try_from(time.as_nanos()).unwrap_or(LONGEST),
        Err(_) => LONGEST,
    }
}

/// Prints the nanoseconds of a clause, each batch at its best, and what was found.
fn tell(rt: &HostRuntime, what: &str, least: &[u64], batch: usize, found: u64) {
    let clauses = (least.len() * batch) as u64;
    let each = least.iter().sum::<u64>() / clauses.max(1);
    let _ = println!(rt; "{what}: {clauses} clauses, {found} found, {each} ns each");
}

/// Times a way in batches of so many clauses, in so many rounds.
fn timed(
    rt: &HostRuntime,
    what: &str,
    way: Way,
    batch: usize,
    rounds: u32,
    bank: &Bank,
    units: &Units,
    scanned: &[Clause],
    clauses: &[Clause],
) -> Mem<()>
    requires { AreClausesOf bank.now units.now }
{
    let mut least = Vec::new(rt.alloc());
    least.resize(clauses.len() / batch, LONGEST)?;
    let mut found = 0;
    for _ in 0..rounds {
        found = 0;
        for at in 0..least.len() {
            let part = &clauses[at * batch..(at + 1) * batch];
            if let Ok(start) = Instant::now(rt) {
                found += find_all(way, rt.alloc(), bank, units, scanned, part)?;
                least[at] = least[at].min(passed(rt, &start));
            }
        }
    }
    tell(rt, what, least.as_slice(), batch, found);
    Ok(())
}

/// Whether there is a word on the command line.
fn has_word(rt: &HostRuntime) -> bool {
    match env::args(rt) {
        Ok(words) => words.len() > 1,
        Err(_) => false,
    }
}

/// Times the clauses that none of 1,000 units rewrites.
fn run<R: Wait>(wait: &R, rt: &HostRuntime, only_falling: bool) -> Mem<()> {
    let alloc = rt.alloc();
    let (bank, mut table) = Bank::new(alloc)?;
    let mut random = Random::new(1);
    let mut scanned = Vec::new(alloc);
    let units = make_units(
        wait,
        alloc,
        &bank,
        &mut table,
        &mut random,
        only_falling,
        &mut scanned,
    )?;
    let clauses = normal_clauses(alloc, &bank, &units, &mut random)?;
    let (scanned, clauses) = (scanned.as_slice(), clauses.as_slice());
    timed(
        rt,
        "search",
        Way::Search,
        BATCH,
        ROUNDS,
        &bank,
        &units,
        scanned,
        clauses,
    )?;
    timed(
        rt,
        "normal form",
        Way::NormalForm,
        BATCH,
        ROUNDS,
        &bank,
        &units,
        scanned,
        clauses,
    )?;
    if has_word(rt) || !only_falling {
        return Ok(());
    }
    let some = &clauses[..SCANNED.min(clauses.len())];
    timed(
        rt,
        "search of these",
        Way::Search,
        1,
        ROUNDS,
        &bank,
        &units,
        scanned,
        some,
    )?;
    timed(
        rt,
        "plain scan",
        Way::PlainScan,
        1,
        SCAN_ROUNDS,
        &bank,
        &units,
        scanned,
        some,
    )
}

/// Times both kinds of units.
fn run_both<R: Wait>(wait: &R, rt: &HostRuntime) -> Mem<()> {
    let _ = println!(rt; "units whose left side is the greater one");
    run(wait, rt, true)?;
    let _ = println!(rt; "units as they come");
    run(wait, rt, false)
}

fn main(rt: HostRuntime) -> ExitCode {
    match run_both(&rt, &rt) {
        Ok(()) => ExitCode::SUCCESS,
        Err(_) => ExitCode::from(7),
    }
}
