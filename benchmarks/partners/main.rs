// The superpositions of a clause with all members of a set, found by the set's trees, and by a plain pass over the members' sites. It tells
// the processor's time of both, of the best of so many rounds over all the queries, and how many superpositions each finds, which is the same
// number. With a word on its command line it leaves out the plain pass. As a crate it needs, in specs/Samples.antt, a record
// that a sample's member is of the bank and its sites are those of its clause with nothing chosen, and the invariants of the loops.
#![tactic(auto)]

use bank_clause::{BankClause, Member};
use eq_rules::Inference;
use fol_base::{Clause, Literal, Literals, canonical};
use literal_selection::Selection;
use partners::Partners;
use plain_types::{Mem, Names};
use sample::Random;
use sample::random_term;
use std::alloc::Global;
use std::process::ExitCode;
use std::sync::Wait;
use std::{env, fs};
use superpose::{Premise, Sites, superpositions};
use term_bank::{Bank, Table};

/// The sizes of the sets.
const MEMBERS: [u32; 2] = [1_000, 10_000];

const QUERIES: usize = 10;

const ROUNDS: u32 = 8;

/// A plain pass is long, so there are fewer.
const PLAIN_ROUNDS: u32 = 4;

#[derive(Drop)]
pub struct Sample {
    pub member: Member,
    pub sites: Sites,
}

fn random_clause(alloc: Global, random: &mut Random) -> Mem<Clause> {
    let mut literals = Vec::new(alloc);
    for _ in 0..2 {
        let positive = random.below(3) > 0;
        let left = random_term(alloc, random, 6)?;
        let right = random_term(alloc, random, 3)?;
        literals.push(Literal {
            positive,
            left,
            right,
        })?;
    }
    let clause = Clause {
        literals: Literals::from_vec(literals),
        names: Names::new(alloc),
    };
    let (clause, _) = canonical(alloc, &clause)?;
    Ok(clause)
}

fn samples<R: Wait>(
    rt: &R,
    alloc: Global,
    bank: &Bank,
    table: &mut Table,
    count: u32,
) -> Mem<Vec<Sample>> {
    let mut random = Random::new(1);
    let mut made = Vec::new(alloc);
    for number in 0..count {
        let clause = random_clause(alloc, &mut random)?;
        let clause = BankClause::of_clause(rt, alloc, bank, table, &clause)?;
        let member = Member { number, clause };
        let sites = Sites::of_member(alloc, bank, &member, Selection::Nothing)?;
        made.push(Sample { member, sites })?;
    }
    Ok(made)
}

impl Sample {
    fn premise(&self) -> Premise<'_> {
        Premise {
            member: &self.member,
            sites: &self.sites,
        }
    }
}

/// The superpositions of a clause with all others, one pair after another.
fn plain(alloc: Global, bank: &Bank, all: &[Sample], given: &Sample) -> Mem<usize> {
    let mut found: Vec<Inference> = Vec::new(alloc);
    for other in all {
        let (one, two) = (given.premise(), other.premise());
        superpositions(alloc, bank, &one, &two, &mut found)?;
        superpositions(alloc, bank, &two, &one, &mut found)?;
    }
    Ok(found.len())
}

fn indexed(alloc: Global, bank: &Bank, set: &Partners, given: &Sample) -> Mem<usize> {
    let mut found: Vec<Inference> = Vec::new(alloc);
    set.superpositions(alloc, bank, &given.premise(), u32::MAX, &mut found)?;
    Ok(found.len())
}

/// The processor's time of the process so far, in nanoseconds (Linux, proc(5), `schedstat`). 0 where it can't be read.
fn spent(rt: &HostRuntime) -> u64 {
    let Ok(text) = fs::read_to_string(rt, "/proc/self/schedstat") else {
        return 0;
    };
    match text.as_str().split_whitespace().next() {
        Some(word) => word.parse().unwrap_or(0),
        None => 0,
    }
}

/// How a clause's superpositions are found.
#[derive(Clone, Copy)]
enum Way {
    Trees,
    Pairs,
}

/// Prints how many superpositions the queries have, and their time in the best round.
fn timed(
    rt: &HostRuntime,
    what: &str,
    way: Way,
    rounds: u32,
    bank: &Bank,
    set: &Partners,
    members: &[Sample],
    queries: &[Sample],
) -> Mem<()> {
    let alloc = rt.alloc();
    let mut least = u64::MAX;
    let mut found = 0;
    for _ in 0..rounds {
        let start = spent(rt);
        found = 0;
        for query in queries {
            found += match way {
                Way::Trees => indexed(alloc, bank, set, query)?,
                Way::Pairs => plain(alloc, bank, members, query)?,
            };
        }
        least = least.min(spent(rt) - start);
    }
    let each = least / queries.len() as u64;
    let _ = println!(rt; "{what}: {found} superpositions, {each} ns a query");
    Ok(())
}

/// Whether there is a word on the command line.
fn has_word(rt: &HostRuntime) -> bool {
    match env::args(rt) {
        Ok(words) => words.len() > 1,
        Err(_) => false,
    }
}

/// Puts all but the first samples into a set, and asks it for the superpositions of these.
fn run(rt: &HostRuntime, bank: &Bank, all: &[Sample]) -> Mem<()> {
    let alloc = rt.alloc();
    let (queries, members) = all.split_at(QUERIES);
    let mut set = Partners::new(alloc, Selection::Nothing)?;
    let start = spent(rt);
    for sample in members {
        set.insert(bank, &sample.member, sample.member.number)?;
    }
    let each = (spent(rt) - start) / members.len() as u64;
    let count = members.len();
    let _ = println!(rt; "{count} members, learned in {each} ns each");
    timed(
        rt,
        "by trees",
        Way::Trees,
        ROUNDS,
        bank,
        &set,
        members,
        queries,
    )?;
    if has_word(rt) {
        return Ok(());
    }
    timed(
        rt,
        "by pairs",
        Way::Pairs,
        PLAIN_ROUNDS,
        bank,
        &set,
        members,
        queries,
    )
}

fn main(rt: HostRuntime) -> ExitCode {
    let alloc = rt.alloc();
    for members in MEMBERS {
        let Ok((bank, mut table)) = Bank::new(alloc) else {
            return ExitCode::from(7);
        };
        let Ok(all) = samples(&rt, alloc, &bank, &mut table, members + QUERIES as u32) else {
            return ExitCode::from(7);
        };
        if run(&rt, &bank, all.as_slice()).is_err() {
            return ExitCode::from(7);
        }
    }
    ExitCode::SUCCESS
}
