// Batches of `work` beside those of a plain worker, on small problems that look random. Up to three workers take turns at a pool: each claims a
// clause, learns what changed, works on it, and gives the batch back at a later turn, so that jobs are out at once, batches go stale or come too
// late, and some jobs are given up. The plain worker keeps its told clauses in a list and tries every pair. It tells how many differences there
// are. The index relies on what the pool says, so this program can't be proved as it stands.
#![tactic(auto)]

use bank_clause::{Member, Members};
use unit_cutting::{cut_unit, cuts, drop_trivial, is_tautology, merge_equal};
use demodulate::normal_form;
use eq_rules::{Inference, factorings, resolutions};
use fol_base::{Clause, Clauses, Literal, Literals, Position, Side, Term, renumbered};
use given_work::{Index, work};
use kernel_steps::Key;
use literal_selection::Selection;
use plain_types::{Mem, Names, NoMemory};
use pool_core::{
    Back, Batch, Change, Claimed, Entry, Fate, News, Options, Pool, Removal, Ticket, Work,
};
use reduced_clause::unreduced;
use rewriting::{Units, is_unit, rewritable};
use sample::Random;
use sample::{atom, binary, constant, unary};
use std::alloc::Global;
use std::process::ExitCode;
use std::sync::Wait;
use subsume::subsumes;
use superpose::{between, within};
use term_bank::Bank;
use unit_cutting::has_one_literal;

const PROBLEMS: u64 = 1_000;

/// Claims and returns of one problem. About half are claims.
const TURNS: u64 = 70;

const MOST_WORKERS: u64 = 3;

/// One job in so many is given up.
const GIVEN_UP: u64 = 10;

/// Most problems have room for so many inferences; some for few, so that batches stop early.
const MANY_INFERENCES: u64 = 2_000;
const FEW_INFERENCES: u64 = 30;

// The symbols: three constants, a function of one and one of two arguments, and two predicates.
const FIRST_CONSTANT: u64 = 1;
const CONSTANTS: u64 = 3;
const VARIABLES: u64 = 3;
const FUNCTION: u32 = 4;
const PAIR: u32 = 5;
const FIRST_PREDICATE: u64 = 6;
const PREDICATES: u64 = 2;

/// What the run counts.
#[derive(Clone, Copy)]
struct Counts {
    met: u64,
    gone: u64,
    stopped: u64,
    stale: u64,
    void: u64,
    given_up: u64,
    heavy: u64,
    keys: u64,
    removals: u64,
    differences: u64,
}

const NOTHING: Counts = Counts {
    met: 0,
    gone: 0,
    stopped: 0,
    stale: 0,
    void: 0,
    given_up: 0,
    heavy: 0,
    keys: 0,
    removals: 0,
    differences: 0,
};

impl Counts {
    fn differs(&mut self, does: bool) {
        if does {
            self.differences += 1;
        }
    }
}

// ---- problems

fn random_term(alloc: Global, random: &mut Random, size: u64) -> Mem<Term> {
    if size < 2 {
        let number = random.below(VARIABLES + CONSTANTS);
        if number < VARIABLES {
            return Ok(Term::Var(number as u32));
        }
        return Ok(constant(
            alloc,
            (FIRST_CONSTANT + number - VARIABLES) as u32,
        ));
    }
    if size == 2 || random.below(2) == 0 {
        let argument = random_term(alloc, random, size - 1)?;
        return unary(alloc, FUNCTION, argument);
    }
    let left = 1 + random.below(size - 2);
    let first = random_term(alloc, random, left)?;
    let second = random_term(alloc, random, size - 1 - left)?;
    binary(alloc, PAIR, first, second)
}

fn random_literal(alloc: Global, random: &mut Random) -> Mem<Literal> {
    let positive = random.below(3) > 0;
    let size = 1 + random.below(4);
    let left = random_term(alloc, random, size)?;
    if random.below(2) == 0 {
        let predicate = (FIRST_PREDICATE + random.below(PREDICATES)) as u32;
        return Ok(Literal {
            positive,
            ..atom(alloc, unary(alloc, predicate, left)?)
        });
    }
    let size = 1 + random.below(3);
    let right = random_term(alloc, random, size)?;
    Ok(Literal {
        positive,
        left,
        right,
    })
}

fn random_inputs(alloc: Global, random: &mut Random) -> Mem<Clauses> {
    let mut clauses = Clauses::new(alloc);
    for _ in 0..2 + random.below(5) {
        let mut literals = Literals::new(alloc);
        for _ in 0..1 + random.below(3) {
            literals.push(random_literal(alloc, random)?)?;
        }
        let clause = Clause {
            literals,
            names: Names::new(alloc),
        };
        clauses.push(renumbered(alloc, &clause)?)?;
    }
    Ok(clauses)
}

fn random_options(random: &mut Random) -> Options {
    let select = if random.below(2) == 0 {
        Selection::Negative
    } else {
        Selection::Nothing
    };
    let inferences = if random.below(5) == 0 {
        1 + random.below(FEW_INFERENCES)
    } else {
        MANY_INFERENCES
    };
    Options {
        select,
        split: false,
        inferences: inferences as u32,
    }
}

// ---- the plain worker

fn same_place(left: &Position, right: &Position) -> bool {
    left.as_slice() == right.as_slice()
}

fn same_key(left: &Key, right: &Key) -> bool {
    match (left, right) {
        (
            Key::Para {
                first,
                from,
                from_side,
                second,
                into,
                into_side,
                place,
            },
            Key::Para {
                first: other_first,
                from: other_from,
                from_side: other_from_side,
                second: other_second,
                into: other_into,
                into_side: other_into_side,
                place: other_place,
            },
        ) => {
            *first == *other_first
                && *second == *other_second
                && *from == *other_from
                && *into == *other_into
                && *from_side == *other_from_side
                && *into_side == *other_into_side
                && same_place(place, other_place)
        }
        (
            Key::Refl { clause, literal },
            Key::Refl {
                clause: other_clause,
                literal: other_literal,
            },
        ) => *clause == *other_clause && *literal == *other_literal,
        (
            Key::Factor {
                clause,
                becomes,
                becomes_side,
                other,
                other_side,
            },
            Key::Factor {
                clause: second_clause,
                becomes: second_becomes,
                becomes_side: second_becomes_side,
                other: second_other,
                other_side: second_other_side,
            },
        ) => {
            *clause == *second_clause
                && *becomes == *second_becomes
                && *becomes_side == *second_becomes_side
                && *other == *second_other
                && *other_side == *second_other_side
        }
        _ => false,
    }
}

/// Every inference of the clause at a place of the list with itself, and with each clause before it.
fn plain_inferences(
    alloc: Global,
    bank: &Bank,
    mode: Selection,
    told: &[Member],
    at: usize,
) -> Mem<Vec<Inference>> {
    let given = &told[at];
    let mut found = within(alloc, bank, given, mode)?.into_vec();
    let mut resolved = resolutions(alloc, bank, given, mode)?.into_vec();
    let mut factored = factorings(alloc, bank, given, mode)?.into_vec();
    found.append(&mut resolved)?;
    found.append(&mut factored)?;
    for partner in &told[..at] {
        let mut others = between(alloc, bank, given, partner, mode)?.into_vec();
        found.append(&mut others)?;
    }
    Ok(found)
}

fn copied(member: &Member) -> Mem<Member> {
    Ok(Member {
        number: member.number,
        clause: member.clause.copied()?,
    })
}

/// Whether a clause subsumes, cuts or rewrites another one.
fn simplifies(alloc: Global, bank: &Bank, by: &Member, other: &Member) -> Mem<bool> {
    let clause = other.clause.to_clause(bank)?;
    if subsumes(alloc, bank, &by.clause, &clause)?.is_some() {
        return Ok(true);
    }
    if has_one_literal(&by.clause) && cuts(alloc, bank, by, &other.clause)? {
        return Ok(true);
    }
    if !is_unit(&by.clause) {
        return Ok(false);
    }
    let mut others = Members::new(alloc);
    others.push(copied(other)?)?;
    Ok(!rewritable(alloc, bank, by, &others)?.is_empty())
}

/// Whether a clause is a tautology, or has a literal that goes without any other clause.
fn is_reducible_alone(alloc: Global, clause: &Clause) -> Mem<bool> {
    let mut reduced = unreduced(alloc, clause)?;
    Ok(is_tautology(clause)
        || drop_trivial(alloc, &mut reduced)?
        || merge_equal(alloc, &mut reduced)?)
}

/// Whether the clause at a place of the list goes, alone or by another one.
fn goes(alloc: Global, bank: &Bank, told: &[Member], at: usize) -> Mem<bool> {
    if is_reducible_alone(alloc, &told[at].clause.to_clause(bank)?)? {
        return Ok(true);
    }
    for (place, by) in told.iter().enumerate() {
        if place != at && simplifies(alloc, bank, by, &told[at])? {
            return Ok(true);
        }
    }
    Ok(false)
}

/// The positive clauses of one literal, for rewriting.
fn equations(alloc: Global, bank: &Bank, told: &[Member]) -> Mem<Units> {
    let mut units = Units::new(alloc)?;
    for member in told {
        if is_unit(&member.clause) {
            units.insert(bank, member)?;
        }
    }
    Ok(units)
}

/// Whether a result can be reduced further, or is redundant.
fn is_reducible(
    alloc: Global,
    bank: &Bank,
    told: &[Member],
    units: &Units,
    clause: &Clause,
) -> Mem<bool> {
    if is_reducible_alone(alloc, clause)? {
        return Ok(true);
    }
    for by in told {
        if subsumes(alloc, bank, &by.clause, clause)?.is_some() {
            return Ok(true);
        }
        if has_one_literal(&by.clause) && cut_unit(alloc, bank, by, clause)?.is_some() {
            return Ok(true);
        }
    }
    Ok(!normal_form(alloc, bank, clause, units, None)?
        .lines
        .is_empty())
}

// ---- the comparison

fn entries_of_key(entries: &[Entry], key: &Key) -> u64 {
    let mut count = 0;
    for entry in entries {
        if same_key(&entry.key, key) {
            count += 1;
        }
    }
    count
}

/// The keys of the entries are those of the inferences, each once. Where the batch stopped early, they are some of them.
fn compare_keys(entries: &[Entry], plain: &[Inference], stopped: bool, counts: &mut Counts) {
    let mut found = 0;
    for inference in plain {
        let count = entries_of_key(entries, &inference.key);
        counts.differs(count > 1 || count == 0 && !stopped);
        found += count;
    }
    counts.differs(found != entries.len() as u64);
    counts.keys += entries.len() as u64;
}

/// Results can't be reduced further.
fn compare_fates(
    alloc: Global,
    bank: &Bank,
    told: &[Member],
    entries: &[Entry],
    counts: &mut Counts,
) -> Mem<()> {
    let units = equations(alloc, bank, told)?;
    for entry in entries {
        match &entry.fate {
            Fate::Kept { results, .. } => {
                for result in results.as_slice() {
                    let reducible = is_reducible(alloc, bank, told, &units, result)?;
                    counts.differs(reducible);
                }
            }
            Fate::Heavy => counts.heavy += 1,
            Fate::Dropped(_) => {}
        }
    }
    Ok(())
}

/// Every other clause that the given one simplifies is a victim, and every victim goes.
fn compare_removals(
    alloc: Global,
    bank: &Bank,
    told: &[Member],
    at: usize,
    removals: &[Removal],
    counts: &mut Counts,
) -> Mem<()> {
    for (place, other) in told.iter().enumerate() {
        let is_victim = removals
            .iter()
            .any(|removal| removal.victim == other.number);
        if place == at {
            counts.differs(is_victim);
        } else if is_victim {
            counts.differs(!goes(alloc, bank, told, place)?);
        } else {
            counts.differs(simplifies(alloc, bank, &told[at], other)?);
        }
    }
    counts.removals += removals.len() as u64;
    Ok(())
}

/// What a batch should be, by the list of told clauses.
fn compare(
    alloc: Global,
    bank: &Bank,
    mode: Selection,
    told: &[Member],
    ticket: &Ticket,
    batch: &Batch,
    counts: &mut Counts,
) -> Mem<()> {
    let Some(at) = told
        .iter()
        .position(|member| member.number == ticket.number)
    else {
        counts.differs(true);
        return Ok(());
    };
    counts.differs(batch.job != ticket.job);
    match &batch.work {
        Work::Gone(removal) => {
            counts.gone += 1;
            counts.differs(removal.victim != ticket.number);
            counts.differs(!goes(alloc, bank, told, at)?);
        }
        Work::Met { entries, removals } => {
            counts.met += 1;
            counts.differs(goes(alloc, bank, told, at)?);
            let plain = plain_inferences(alloc, bank, mode, told, at)?;
            let stopped = entries.len() >= ticket.left as usize;
            compare_keys(entries.as_slice(), plain.as_slice(), stopped, counts);
            compare_fates(alloc, bank, told, entries.as_slice(), counts)?;
            if stopped {
                counts.stopped += 1;
            } else {
                compare_removals(alloc, bank, told, at, removals.as_slice(), counts)?;
            }
        }
    }
    Ok(())
}

// ---- the workers

/// A worker: its index, the list of the clauses that it was told, and the batch that it is to give back.
#[derive(Drop)]
struct Worker {
    index: Option<Index>,
    told: Vec<Member>,
    batch: Option<Batch>,
}

impl Worker {
    fn new(alloc: Global, options: Options) -> Mem<Worker> {
        Ok(Worker {
            index: Some(Index::new(alloc, options)?),
            told: Vec::new(alloc),
            batch: None,
        })
    }

    /// Up to which place in the history it was told.
    fn place(&self) -> u64 {
        match &self.index {
            Some(index) => index.told(),
            None => 0,
        }
    }

    fn list(&mut self, news: &News) -> Mem<()> {
        for change in news.as_slice() {
            match change {
                Change::Activated(member) => self.told.push(copied(member)?)?,
                Change::Died(number) => {
                    if let Some(at) = self.told.iter().position(|told| told.number == *number) {
                        let _ = self.told.remove(at);
                    }
                }
            }
        }
        Ok(())
    }

    fn learn(&mut self, alloc: Global, bank: &Bank, ticket: &Ticket) -> Mem<()> {
        self.list(&ticket.news)?;
        if let Some(index) = self.index.take() {
            self.index = Some(index.learn(alloc, bank, &ticket.news, ticket.as_of)?);
        }
        Ok(())
    }

    /// Works on the clause of a ticket that was learned, and compares the batch.
    fn work(
        &mut self,
        alloc: Global,
        bank: &Bank,
        mode: Selection,
        ticket: &Ticket,
        counts: &mut Counts,
    ) -> Mem<()> {
        let Some(index) = &self.index else {
            return Err(NoMemory);
        };
        let batch = work(alloc, bank, ticket, index)?;
        compare(
            alloc,
            bank,
            mode,
            self.told.as_slice(),
            ticket,
            &batch,
            counts,
        )?;
        self.batch = Some(batch);
        Ok(())
    }
}

/// A worker gives its batch back.
fn return_batch<R: Wait>(
    rt: &R,
    alloc: Global,
    bank: &Bank,
    pool: &mut Pool,
    worker: &mut Worker,
    batch: Batch,
    counts: &mut Counts,
) -> Mem<()> {
    let mode = pool.options().select;
    match pool.give_back(rt, alloc, bank, batch, worker.place())? {
        Back::Taken => {}
        Back::Void(_) => counts.void += 1,
        Back::Stale { ticket, .. } => {
            counts.stale += 1;
            worker.learn(alloc, bank, &ticket)?;
            worker.work(alloc, bank, mode, &ticket, counts)?;
        }
    }
    Ok(())
}

/// A worker claims a clause and works on it, or gives the job up. False where an outcome stands.
fn claim(
    alloc: Global,
    bank: &Bank,
    pool: &mut Pool,
    worker: &mut Worker,
    random: &mut Random,
    counts: &mut Counts,
) -> Mem<bool> {
    let mode = pool.options().select;
    match pool.claim(alloc, worker.place())? {
        Claimed::Given(ticket) => {
            worker.learn(alloc, bank, &ticket)?;
            if random.below(GIVEN_UP) == 0 {
                pool.abandon(ticket.job);
                counts.given_up += 1;
            } else {
                worker.work(alloc, bank, mode, &ticket, counts)?;
            }
            Ok(true)
        }
        Claimed::Idle(_) => Ok(true),
        Claimed::Ended(_) | Claimed::Solve(_) => Ok(false),
    }
}

/// The workers take turns at one problem until it ends, or for so many turns.
fn run_problem<R: Wait>(rt: &R, alloc: Global, seed: u64, counts: &mut Counts) -> Mem<()> {
    let mut random = Random::new(seed);
    let (bank, table) = Bank::new(alloc)?;
    let inputs = random_inputs(alloc, &mut random)?;
    let options = random_options(&mut random);
    let mut pool = Pool::new(rt, alloc, &bank, table, &inputs, options)?;
    let mut workers = Vec::new(alloc);
    let count = 1 + random.below(MOST_WORKERS);
    for _ in 0..count {
        workers.push(Worker::new(alloc, options)?)?;
    }
    for _ in 0..TURNS {
        let at = random.below(count) as usize;
        let worker = &mut workers[at];
        match worker.batch.take() {
            Some(batch) => return_batch(rt, alloc, &bank, &mut pool, worker, batch, counts)?,
            None => {
                if !claim(alloc, &bank, &mut pool, worker, &mut random, counts)? {
                    return Ok(());
                }
            }
        }
    }
    Ok(())
}

fn main(rt: HostRuntime) -> ExitCode {
    let alloc = rt.alloc();
    let mut counts = NOTHING;
    for seed in 0..PROBLEMS {
        let before = counts.differences;
        if run_problem(&rt, alloc, seed, &mut counts).is_err() {
            return ExitCode::from(7);
        }
        if counts.differences > before && println!(rt; "problem {seed} differs").is_err() {
            return ExitCode::from(8);
        }
    }
    let Counts {
        met,
        gone,
        stopped,
        stale,
        void,
        given_up,
        heavy,
        keys,
        removals,
        differences,
    } = counts;
    let told = println!(rt;
        "{PROBLEMS} problems: {met} batches met, {stopped} of them stopped early, {gone} gone; {stale} stale, {void} void, {given_up} given up; {keys} keys, {heavy} heavy, {removals} removals; {differences} differences"
    );
    match told {
        Ok(()) => ExitCode::SUCCESS,
        Err(_) => ExitCode::from(8),
    }
}
