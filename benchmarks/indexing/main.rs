// Random terms of 5 to 20 symbols and variables in an index: how long insertions, the three queries and removals take, and how many bytes an
// entry has. All is timed in short batches, and of each batch the best of so many rounds counts, since other processes interrupt the rest. As a
// crate over disc_tree, fol_base, plain_types, sample and sample it needs no proof file where it is built unproved.
#![tactic(auto)]

use disc_tree::DiscTree;
use fol_base::Term;
use plain_types::Mem;
use sample::Random;
use sample::random_terms;
use std::alloc::Global;
use std::fs;
use std::process::ExitCode;
use std::time::Instant;

/// How many entries the trees have, how many queries there are, and how many of them are timed together.
const SIZES: [(usize, usize, usize); 3] = [
    (1_000, 10_000, 200),
    (10_000, 4_000, 20),
    (100_000, 1_000, 2),
];

/// So many parts of the queries for generalisations, which are short, are timed one after another.
const PARTS: usize = 20;

/// So many insertions or removals are timed together.
const EDITS: usize = 100;

const ROUNDS: u32 = 20;

/// Trees are filled and emptied so often.
const FILLINGS: u32 = 5;

/// More nanoseconds than a batch takes.
const LONGEST: u64 = 1_000_000_000_000;

/// Bytes in a page of memory.
const PAGE: u64 = 4096;

/// What is timed.
#[derive(Clone, Copy)]
enum Kind {
    Unifiable,
    Generalisations,
    Instances,
}

/// The nanoseconds since then.
fn passed(rt: &HostRuntime, start: &Instant) -> u64 {
    match start.elapsed(rt) {
        Ok(time) => u64::try_from(time.as_nanos()).unwrap_or(LONGEST),
        Err(_) => LONGEST,
    }
}

/// The bytes of the process that are in memory (Linux, proc(5), `statm`). 0 where they can't be read.
fn resident(rt: &HostRuntime) -> u64 {
    let Ok(text) = fs::read_to_string(rt, "/proc/self/statm") else {
        return 0;
    };
    match text.as_str().split_whitespace().nth(1) {
        Some(word) => word.parse::<u64>().unwrap_or(0).wrapping_mul(PAGE),
        None => 0,
    }
}

fn ask(tree: &DiscTree, query: &Term, kind: Kind, found: &mut Vec<u64>) -> Mem<()> {
    match kind {
        Kind::Unifiable => tree.push_unifiable(query, found),
        Kind::Generalisations => tree.push_generalisations(query, found),
        Kind::Instances => tree.push_instances(query, found),
    }
}

/// Prints the time of a query, each batch at its best, and how many entries all find.
fn timed(
    rt: &HostRuntime,
    what: &str,
    tree: &DiscTree,
    queries: &[Term],
    batch: usize,
    kind: Kind,
) -> Mem<()> {
    let mut least = Vec::new(rt.alloc());
    least.resize(queries.len() / batch, LONGEST)?;
    let mut found: Vec<u64> = Vec::new(rt.alloc());
    let mut count = 0u64;
    for _ in 0..ROUNDS {
        count = 0;
        for at in 0..least.len() {
            if let Ok(start) = Instant::now(rt) {
                for index in at * batch..(at + 1) * batch {
                    found.clear();
                    ask(tree, &queries[index], kind, &mut found)?;
                    count = count.wrapping_add(found.len() as u64);
                }
                least[at] = least[at].min(passed(rt, &start));
            }
        }
    }
    let asked = (least.len() * batch) as u64;
    let each = least.iter().sum::<u64>() / asked.max(1);
    let _ = println!(rt; "{what}: {asked} queries, {count} found, {each} ns each");
    Ok(())
}

/// Fills trees and empties them, and prints the time of an insertion and of a removal.
fn edits(rt: &HostRuntime, entries: &[Term]) -> Mem<()> {
    let mut put = Vec::new(rt.alloc());
    put.resize(entries.len() / EDITS, LONGEST)?;
    let mut taken = Vec::new(rt.alloc());
    taken.resize(entries.len() / EDITS, LONGEST)?;
    let mut gone = 0u64;
    for _ in 0..FILLINGS {
        let mut tree = DiscTree::new(rt.alloc())?;
        for at in 0..put.len() {
            if let Ok(start) = Instant::now(rt) {
                for index in at * EDITS..(at + 1) * EDITS {
                    tree.insert(&entries[index], index as u64)?;
                }
                put[at] = put[at].min(passed(rt, &start));
            }
        }
        for at in 0..taken.len() {
            if let Ok(start) = Instant::now(rt) {
                for index in at * EDITS..(at + 1) * EDITS {
                    if tree.remove(&entries[index], index as u64) {
                        gone = gone.wrapping_add(1);
                    }
                }
                taken[at] = taken[at].min(passed(rt, &start));
            }
        }
    }
    let count = entries.len() as u64;
    let inserted = put.iter().sum::<u64>() / count.max(1);
    let removed = taken.iter().sum::<u64>() / count.max(1);
    let _ = println!(rt; "{count} entries: insertion {inserted} ns, removal {removed} ns, {gone} removed");
    Ok(())
}

fn filled(alloc: Global, entries: &[Term]) -> Mem<DiscTree> {
    let mut tree = DiscTree::new(alloc)?;
    for index in 0..entries.len() {
        tree.insert(&entries[index], index as u64)?;
    }
    Ok(tree)
}

/// Prints how many bytes more are in memory for each entry while a tree has them.
fn weighed(rt: &HostRuntime, entries: &[Term]) -> Mem<()> {
    let before = resident(rt);
    let _tree = filled(rt.alloc(), entries)?;
    let count = entries.len() as u64;
    let each = resident(rt).wrapping_sub(before) / count.max(1);
    let _ = println!(rt; "{count} entries: {each} bytes each");
    Ok(())
}

fn measure(rt: &HostRuntime, entries: &[Term], queries: &[Term], batch: usize) -> Mem<()> {
    let tree = filled(rt.alloc(), entries)?;
    let count = entries.len();
    let _ = println!(rt; "{count} entries");
    timed(rt, "unifiable", &tree, queries, batch, Kind::Unifiable)?;
    let many = queries.len() / PARTS;
    timed(rt, "generalisations", &tree, queries, many, Kind::Generalisations)?;
    timed(rt, "instances", &tree, queries, batch, Kind::Instances)
}

fn run(rt: &HostRuntime) -> Mem<()> {
    let terms = random_terms(rt.alloc(), &mut Random::new(1), 100_000)?;
    let queries = random_terms(rt.alloc(), &mut Random::new(2), 10_000)?;
    weighed(rt, terms.as_slice())?;
    for (size, asked, batch) in [SIZES[1], SIZES[0], SIZES[2]] {
        measure(rt, &terms[..size], &queries[..asked], batch)?;
    }
    for (size, _, _) in SIZES {
        edits(rt, &terms[..size])?;
    }
    Ok(())
}

fn main(rt: HostRuntime) -> ExitCode {
    match run(&rt) {
        Ok(()) => ExitCode::SUCCESS,
        Err(_) => ExitCode::from(7),
    }
}
