// Superpositions between random clauses of three literals, from pairs of sites that an index of sites hands out: those whose terms agree but for
// what variables stand for. It tells the time of a candidate that gives a conclusion, of one that the order refuses, and of one whose terms don't
// unify: the candidates are timed in short batches, and of each batch the best of so many rounds counts, since other processes interrupt the rest.
// As a crate it needs, in specs/Samples.antt, the record IsSampleOf of a bank and a sample (the member is of the bank, the sites are those of its
// clause, their mode is Nothing), and the invariant of the loop in `samples` that the table is of the bank and all that was made are such samples.
#![tactic(auto)]

ghost use Rattle.std.specs.Prelude.{IfOk, IfSome};
ghost use Rattle.std.specs.List.{All};
ghost use Rattle.term_bank.specs.Table.{IsTableOf};
ghost use Rattle.bank_clause.specs.Clause.{clause_at, IsMemberOf};
ghost use Rattle.literal_selection.specs.declared.choice.Selection.TheVariants.{Nothing};
ghost use Rattle.superpose.specs.Sites.{AreSitesOf};
ghost use Rattle.superpose_speed.specs.Samples.{IsSampleOf};

use bank_clause::{BankClause, Member};
use disc_tree::is_compatible;
use eq_rules::Made;
use fol_base::{
    Clause, LendsLiterals, Literal, Literals, SIZE_LIMIT, Term, at, canonical, is_canonical,
};
use literal_selection::Selection;
use plain_types::{Mem, Names};
use sample::Random;
use sample::random_term;
use std::alloc::Global;
use std::process::ExitCode;
use std::sync::Wait;
use std::time::Instant;
use superpose::{Premise, Sites, superposition};
use term_bank::{Bank, Table};
use unifier::unify;

const CLAUSES: u64 = 300;

const CANDIDATES: usize = 10_000;

/// So many candidates are timed together.
const BATCH: usize = 100;

const ROUNDS: u32 = 20;

/// More nanoseconds than a batch takes.
const LONGEST: u64 = 1_000_000_000_000;

#[derive(Drop)]
pub struct Sample {
    pub member: Member,
    pub sites: Sites,
}

/// A site of one clause and a site of another, by their indices.
#[derive(Clone, Copy)]
pub struct Candidate {
    pub first: usize,
    pub from: usize,
    pub second: usize,
    pub into: usize,
}

fn random_literal(alloc: Global, random: &mut Random) -> Mem<Literal> {
    let positive = random.below(2) == 0;
    let size = 3 + random.below(4);
    let left = random_term(alloc, random, size)?;
    let right = random_term(alloc, random, 8 - size)?;
    Ok(Literal {
        positive,
        left,
        right,
    })
}

fn random_clause(alloc: Global, random: &mut Random) -> Mem<Clause> {
    let mut literals = Vec::new(alloc);
    for _ in 0..3 {
        literals.push(random_literal(alloc, random)?)?;
    }
    let clause = Clause {
        literals: Literals::from_vec(literals),
        names: Names::new(alloc),
    };
    let (clause, _) = canonical(alloc, &clause)?;
    Ok(clause)
}

fn member<R: Wait>(
    rt: &R,
    alloc: Global,
    bank: &Bank,
    table: &mut Table,
    number: u32,
    clause: &Clause,
) -> Mem<Option<Member>>
    requires { IsTableOf bank.now table.old }
    ensures made { IfOk result (λ made. IfSome made (IsMemberOf bank.now)) }
    ensures table { IsTableOf bank.now table.new }
{
    if !clause.names.is_empty() || !is_canonical(clause) || clause.size() >= SIZE_LIMIT {
        return Ok(None);
    }
    let clause = BankClause::of_clause(rt, alloc, bank, table, clause)?;
    Ok(Some(Member { number, clause }))
}

fn make_sample(alloc: Global, bank: &Bank, member: Member) -> Mem<Sample>
    requires { IsMemberOf bank.now member }
    ensures { IfOk result (IsSampleOf bank.now) }
{
    let sites = Sites::of_member(alloc, bank, &member, Selection::Nothing)?;
    Ok(Sample { member, sites })
}

fn push_sample<R: Wait>(
    rt: &R,
    alloc: Global,
    bank: &Bank,
    table: &mut Table,
    number: u32,
    clause: &Clause,
    made: &mut Vec<Sample>,
) -> Mem<()>
    requires table { IsTableOf bank.now table.old }
    requires all { All (IsSampleOf bank.now) made.old.items }
    ensures table { IsTableOf bank.now table.new }
    ensures all { IfOk result (λ _. All (IsSampleOf bank.now) made.new.items) }
{
    if let Some(member) = member(rt, alloc, bank, table, number, clause)? {
        made.push(make_sample(alloc, bank, member)?)?;
    }
    Ok(())
}

fn samples<R: Wait>(rt: &R, alloc: Global, bank: &Bank, table: &mut Table) -> Mem<Vec<Sample>>
    requires { IsTableOf bank.now table.old }
    ensures { IfOk result (λ made. All (IsSampleOf bank.now) made.items) }
{
    let mut random = Random::new(1);
    let mut made = Vec::new(alloc);
    for number in 0..CLAUSES {
        let clause = random_clause(alloc, &mut random)?;
        push_sample(rt, alloc, bank, table, number as u32, &clause, &mut made)?;
    }
    Ok(made)
}

/// What the terms of two sites are to each other.
#[derive(Clone, Copy, PartialEq, Eq)]
enum Fit {
    Unify,
    /// They agree but for what variables stand for, so that an index hands them out; but they don't unify.
    Agree,
    Clash,
}

fn fit_of(
    alloc: Global,
    bank: &Bank,
    first: &Sample,
    from: usize,
    second: &Sample,
    into: usize,
) -> Mem<Fit>
    requires first { IsSampleOf bank.now first.now }
    requires second { IsSampleOf bank.now second.now }
{
    if from >= first.sites.from.len() || into >= second.sites.into.len() {
        return Ok(Fit::Clash);
    }
    let start = first.sites.from[from];
    let target = &second.sites.into[into];
    let first_literals = first.member.clause.lend(bank);
    let second_literals = second.member.clause.lend(bank);
    if start.literal >= first_literals.count() || target.at.literal >= second_literals.count() {
        return Ok(Fit::Clash);
    }
    let host = second_literals
        .literal(target.at.literal)
        .side(target.at.side);
    match at(host, &target.place) {
        Some(old) => {
            let side = first_literals.literal(start.literal).side(start.side);
            if unify(alloc, side, old, true)?.is_some() {
                return Ok(Fit::Unify);
            }
            if is_compatible(side, old, true, true) {
                Ok(Fit::Agree)
            } else {
                Ok(Fit::Clash)
            }
        }
        None => Ok(Fit::Clash),
    }
}

/// What becomes of a candidate: 0 for none, 1 for a conclusion or a heavy one.
fn tried(
    alloc: Global,
    bank: &Bank,
    first: &Sample,
    from: usize,
    second: &Sample,
    into: usize,
) -> Mem<u64>
    requires first { IsSampleOf bank.now first.now }
    requires second { IsSampleOf bank.now second.now }
{
    if from >= first.sites.from.len() || into >= second.sites.into.len() {
        return Ok(0);
    }
    let one = Premise {
        member: &first.member,
        sites: &first.sites,
    };
    let other = Premise {
        member: &second.member,
        sites: &second.sites,
    };
    match superposition(alloc, bank, &one, from, &other, into)? {
        Some(_) => Ok(1),
        None => Ok(0),
    }
}

/// The candidates, by what becomes of them.
#[derive(Drop)]
struct Candidates {
    concluded: Vec<Candidate>,
    refused: Vec<Candidate>,
    not_unified: Vec<Candidate>,
}

/// Adds the candidates between two clauses, one way.
fn push_candidates(
    alloc: Global,
    bank: &Bank,
    samples: &[Sample],
    first: usize,
    second: usize,
    found: &mut Candidates,
) -> Mem<()>
    requires { All (IsSampleOf bank.now) samples.now }
{
    if first >= samples.len() || second >= samples.len() {
        return Ok(());
    }
    for from in 0..samples[first].sites.from.len() {
        for into in 0..samples[second].sites.into.len() {
            let candidate = Candidate {
                first,
                from,
                second,
                into,
            };
            let (one, other) = (&samples[first], &samples[second]);
            match fit_of(alloc, bank, one, from, other, into)? {
                Fit::Clash => {}
                Fit::Agree => found.not_unified.push(candidate)?,
                Fit::Unify => {
                    if tried(alloc, bank, one, from, other, into)? == 0 {
                        found.refused.push(candidate)?;
                    } else {
                        found.concluded.push(candidate)?;
                    }
                }
            }
        }
    }
    Ok(())
}

/// Tries all candidates, and tells how many have an inference.
fn try_all(alloc: Global, bank: &Bank, samples: &[Sample], candidates: &[Candidate]) -> Mem<u64>
    requires { All (IsSampleOf bank.now) samples.now }
{
    let mut found: u64 = 0;
    for candidate in candidates {
        let first = candidate.first;
        let second = candidate.second;
        if first < samples.len() && second < samples.len() {
            let from = candidate.from;
            let into = candidate.into;
            found = found.saturating_add(tried(
                alloc,
                bank,
                &samples[first],
                from,
                &samples[second],
                into,
            )?);
        }
    }
    Ok(found)
}

/// The nanoseconds since then.
fn passed(rt: &HostRuntime, start: &Instant) -> u64 {
    match start.elapsed(rt) {
        Ok(time) => u64::try_from(time.as_nanos()).unwrap_or(LONGEST),
        Err(_) => LONGEST,
    }
}

/// Prints the nanoseconds of a candidate, each batch at its best, and what was found.
fn tell(rt: &HostRuntime, what: &str, least: &[u64], found: u64) {
    let count = (least.len() * BATCH) as u64;
    let each = least.iter().sum::<u64>() / count.max(1);
    let _ = println!(rt; "{what}: {count} candidates, {found} inferences, {each} ns each");
}

/// Times candidates in batches.
fn timed(
    rt: &HostRuntime,
    bank: &Bank,
    samples: &[Sample],
    candidates: &[Candidate],
    what: &str,
) -> Mem<()>
    requires { All (IsSampleOf bank.now) samples.now }
{
    let mut least = Vec::new(rt.alloc());
    least.resize(candidates.len() / BATCH, LONGEST)?;
    let mut found = 0;
    for _ in 0..ROUNDS {
        found = 0;
        for at in 0..least.len() {
            let part = &candidates[at * BATCH..(at + 1) * BATCH];
            if let Ok(start) = Instant::now(rt) {
                found += try_all(rt.alloc(), bank, samples, part)?;
                least[at] = least[at].min(passed(rt, &start));
            }
        }
    }
    tell(rt, what, least.as_slice(), found);
    Ok(())
}

/// Finds the candidates, and times them.
fn run(rt: &HostRuntime, bank: &Bank, samples: &[Sample]) -> Mem<()>
    requires { All (IsSampleOf bank.now) samples.now }
{
    let alloc = rt.alloc();
    let mut found = Candidates {
        concluded: Vec::new(alloc),
        refused: Vec::new(alloc),
        not_unified: Vec::new(alloc),
    };
    for first in 0..samples.len() {
        for second in 0..samples.len() {
            if found.concluded.len() < CANDIDATES {
                push_candidates(alloc, bank, samples, first, second, &mut found)?;
            }
        }
    }
    timed(rt, bank, samples, found.concluded.as_slice(), "concluded")?;
    timed(
        rt,
        bank,
        samples,
        found.refused.as_slice(),
        "refused by the order",
    )?;
    timed(
        rt,
        bank,
        samples,
        found.not_unified.as_slice(),
        "not unified",
    )
}

fn main(rt: HostRuntime) -> ExitCode {
    let alloc = rt.alloc();
    if let Ok((bank, mut table)) = Bank::new(alloc) {
        if let Ok(samples) = samples(&rt, alloc, &bank, &mut table) {
            if run(&rt, &bank, samples.as_slice()).is_ok() {
                return ExitCode::SUCCESS;
            }
        }
    }
    ExitCode::from(7)
}
