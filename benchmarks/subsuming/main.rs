// Clauses of three literals and about 25 symbols that none of 10,000 such members subsumes: a search for the lowest subsumer over the tree of
// features, and beside it a plain scan of the members. It tells the time of a clause: the clauses are timed in short batches, and of each batch
// the best of so many rounds counts, since other processes interrupt the rest. With a word on its command line it leaves out the scan. As a
// crate it needs the invariant of the loop in `make_members`: the table is of the bank, and so are the members.
#![tactic(auto)]

ghost use Rattle.std.specs.Prelude.{IfOk, IfSome};
ghost use Rattle.term_bank.specs.Table.{IsTableOf};
ghost use Rattle.bank_clause.specs.Clause.{AreMembersOf, IsMemberOf};

use bank_clause::{BankClause, Member, Members};
use fol_base::{Clause, Literal, Literals, SIZE_LIMIT, Term, canonical, is_canonical};
use plain_types::{Mem, Names};
use sample::Random;
use sample::{random_term, unary};
use std::alloc::Global;
use std::env;
use std::process::ExitCode;
use std::sync::Wait;
use std::time::Instant;
use subsume::{Subsumers, forward, subsumes};
use term_bank::{Bank, Table};

const MEMBERS: u32 = 10_000;

const CLAUSES: u64 = 2_000;

/// So many clauses are timed together.
const BATCH: usize = 50;

const ROUNDS: u32 = 20;

/// So many clauses are looked up by the plain scan, each a batch of its own.
const SCANNED: usize = 20;

const SCAN_ROUNDS: u32 = 5;

/// More nanoseconds than a batch takes.
const LONGEST: u64 = 1_000_000_000_000;

/// How a subsumer is looked for.
#[derive(Clone, Copy)]
enum Way {
    Search,
    PlainScan,
}

/// The first of so many predicates.
const PREDICATE: u32 = 30;

const PREDICATES: u64 = 5;

/// A literal of about eight symbols: an atom, or an equation.
fn random_literal(alloc: Global, random: &mut Random) -> Mem<Literal> {
    let positive = random.below(2) == 0;
    if random.below(3) == 0 {
        let size = 2 + random.below(5);
        return Ok(Literal {
            positive,
            left: random_term(alloc, random, size)?,
            right: random_term(alloc, random, 8 - size)?,
        });
    }
    let predicate = PREDICATE + random.below(PREDICATES) as u32;
    let size = 5 + random.below(4);
    let argument = random_term(alloc, random, size)?;
    Ok(Literal {
        positive,
        left: unary(alloc, predicate, argument)?,
        right: Term::truth(alloc),
    })
}

/// A canonical clause of three literals.
fn random_clause(alloc: Global, random: &mut Random) -> Mem<Clause> {
    let mut literals = Vec::new(alloc);
    for _ in 0..3 {
        literals.push(random_literal(alloc, random)?)?;
    }
    let clause = Clause {
        literals: Literals::from_vec(literals),
        names: Names::new(alloc),
    };
    let (clause, _) = canonical(alloc, &clause)?;
    Ok(clause)
}

/// The clause as a member. None where it can't be one.
fn member<R: Wait>(
    rt: &R,
    alloc: Global,
    bank: &Bank,
    table: &mut Table,
    number: u32,
    clause: &Clause,
) -> Mem<Option<Member>>
    requires { IsTableOf bank.now table.old }
    ensures made { IfOk result (λ made. IfSome made (IsMemberOf bank.now)) }
    ensures table { IsTableOf bank.now table.new }
{
    if !clause.names.is_empty() || !is_canonical(clause) || clause.size() >= SIZE_LIMIT {
        return Ok(None);
    }
    let clause = BankClause::of_clause(rt, alloc, bank, table, clause)?;
    Ok(Some(Member { number, clause }))
}

/// Adds a random member.
fn push_member<R: Wait>(
    rt: &R,
    alloc: Global,
    bank: &Bank,
    table: &mut Table,
    number: u32,
    clause: &Clause,
    members: &mut Members,
) -> Mem<()>
    requires table { IsTableOf bank.now table.old }
    requires members { AreMembersOf bank.now members.old }
    ensures table { IsTableOf bank.now table.new }
    ensures members { IfOk result (λ _. AreMembersOf bank.now members.new) }
{
    if let Some(made) = member(rt, alloc, bank, table, number, clause)? {
        members.push(made)?;
    }
    Ok(())
}

fn make_members<R: Wait>(
    rt: &R,
    alloc: Global,
    bank: &Bank,
    table: &mut Table,
    random: &mut Random,
) -> Mem<Members>
    requires { IsTableOf bank.now table.old }
    ensures { IfOk result (AreMembersOf bank.now) }
{
    let mut members = Members::new(alloc);
    for number in 0..MEMBERS {
        let clause = random_clause(alloc, random)?;
        push_member(rt, alloc, bank, table, number, &clause, &mut members)?;
    }
    Ok(members)
}

/// Puts a member into a set, in the place of one with its number.
fn put(set: &mut Subsumers, bank: &Bank, member: &Member) -> Mem<()>
    requires of_bank { IsMemberOf bank.now member.now }
    requires set { AreMembersOf bank.now set.old }
    ensures { IfOk result (λ _. AreMembersOf bank.now set.new) }
{
    let _ = set.remove(member.number);
    set.insert(bank, member)
}

fn set_of(alloc: Global, bank: &Bank, members: &[Member]) -> Mem<Subsumers>
    requires { AreMembersOf bank.now members.now }
    ensures { IfOk result (AreMembersOf bank.now) }
{
    let mut set = Subsumers::new(alloc)?;
    for one in members {
        put(&mut set, bank, one)?;
    }
    Ok(set)
}

/// Random clauses that no member subsumes.
fn free_clauses(
    alloc: Global,
    bank: &Bank,
    set: &Subsumers,
    random: &mut Random,
) -> Mem<Vec<Clause>>
    requires { AreMembersOf bank.now set.now }
{
    let mut clauses = Vec::new(alloc);
    for _ in 0..CLAUSES {
        let clause = random_clause(alloc, random)?;
        if forward(alloc, bank, set, &clause)?.is_none() {
            clauses.push(clause)?;
        }
    }
    Ok(clauses)
}

/// How many of the clauses have a subsumer.
fn search_all(alloc: Global, bank: &Bank, set: &Subsumers, clauses: &[Clause]) -> Mem<u64>
    requires { AreMembersOf bank.now set.now }
{
    let mut found = 0u64;
    for clause in clauses {
        if forward(alloc, bank, set, clause)?.is_some() {
            found = found.saturating_add(1);
        }
    }
    Ok(found)
}

/// Whether some member subsumes a clause, by a scan.
fn scan(alloc: Global, bank: &Bank, members: &[Member], clause: &Clause) -> Mem<bool>
    requires { AreMembersOf bank.now members.now }
{
    for one in members {
        if subsumes(alloc, bank, &one.clause, clause)?.is_some() {
            return Ok(true);
        }
    }
    Ok(false)
}

fn scan_all(alloc: Global, bank: &Bank, members: &[Member], clauses: &[Clause]) -> Mem<u64>
    requires { AreMembersOf bank.now members.now }
{
    let mut found = 0u64;
    for clause in clauses {
        if scan(alloc, bank, members, clause)? {
            found = found.saturating_add(1);
        }
    }
    Ok(found)
}

/// How many of the clauses have a subsumer, by a way.
fn find_all(
    way: Way,
    alloc: Global,
    bank: &Bank,
    set: &Subsumers,
    members: &[Member],
    clauses: &[Clause],
) -> Mem<u64>
    requires set { AreMembersOf bank.now set.now }
    requires members { AreMembersOf bank.now members.now }
{
    match way {
        Way::Search => search_all(alloc, bank, set, clauses),
        Way::PlainScan => scan_all(alloc, bank, members, clauses),
    }
}

/// The nanoseconds since then.
fn passed(rt: &HostRuntime, start: &Instant) -> u64 {
    match start.elapsed(rt) {
        Ok(time) => u64::try_from(time.as_nanos()).unwrap_or(LONGEST),
        Err(_) => LONGEST,
    }
}

/// Prints the nanoseconds of a clause, each batch at its best, and what was found.
fn tell(rt: &HostRuntime, what: &str, least: &[u64], batch: usize, found: u64) {
    let clauses = (least.len() * batch) as u64;
    let each = least.iter().sum::<u64>() / clauses.max(1);
    let _ = println!(rt; "{what}: {clauses} clauses, {found} found, {each} ns each");
}

/// Times a way in batches of so many clauses, in so many rounds.
fn timed(
    rt: &HostRuntime,
    what: &str,
    way: Way,
    batch: usize,
    rounds: u32,
    bank: &Bank,
    set: &Subsumers,
    members: &[Member],
    clauses: &[Clause],
) -> Mem<()>
    requires set { AreMembersOf bank.now set.now }
    requires members { AreMembersOf bank.now members.now }
{
    let mut least = Vec::new(rt.alloc());
    least.resize(clauses.len() / batch, LONGEST)?;
    let mut found = 0;
    for _ in 0..rounds {
        found = 0;
        for at in 0..least.len() {
            let part = &clauses[at * batch..(at + 1) * batch];
            if let Ok(start) = Instant::now(rt) {
                found += find_all(way, rt.alloc(), bank, set, members, part)?;
                least[at] = least[at].min(passed(rt, &start));
            }
        }
    }
    tell(rt, what, least.as_slice(), batch, found);
    Ok(())
}

/// Whether there is a word on the command line.
fn has_word(rt: &HostRuntime) -> bool {
    match env::args(rt) {
        Ok(words) => words.len() > 1,
        Err(_) => false,
    }
}

fn run<R: Wait>(wait: &R, rt: &HostRuntime) -> Mem<()> {
    let alloc = rt.alloc();
    let (bank, mut table) = Bank::new(alloc)?;
    let mut random = Random::new(1);
    let members = make_members(wait, alloc, &bank, &mut table, &mut random)?;
    let set = set_of(alloc, &bank, members.as_slice())?;
    let clauses = free_clauses(alloc, &bank, &set, &mut random)?;
    let (members, clauses) = (members.as_slice(), clauses.as_slice());
    timed(
        rt,
        "search",
        Way::Search,
        BATCH,
        ROUNDS,
        &bank,
        &set,
        members,
        clauses,
    )?;
    if has_word(rt) {
        return Ok(());
    }
    let some = &clauses[..SCANNED.min(clauses.len())];
    timed(
        rt,
        "search of these",
        Way::Search,
        1,
        ROUNDS,
        &bank,
        &set,
        members,
        some,
    )?;
    timed(
        rt,
        "plain scan",
        Way::PlainScan,
        1,
        SCAN_ROUNDS,
        &bank,
        &set,
        members,
        some,
    )
}

fn main(rt: HostRuntime) -> ExitCode {
    match run(&rt, &rt) {
        Ok(()) => ExitCode::SUCCESS,
        Err(_) => ExitCode::from(7),
    }
}
