// Random small problems, each worked on by one worker and by a team of 2 to 16 whose workers are held for random times before each of their jobs. An
// answer of the team is right where its refutation is accepted, or where it is saturated and one worker hasn't refuted the problem; and the other way
// round. It tells what it counted, after each hundred and at the end, and each problem with two answers that contradict each other. Two numbers on the
// command line are the first problem, in place of 0, and how many there are, in place of 1,000. It stands as `src/main.rt` in a crate over the crates that it names.
#![tactic(auto)]

use clausal_form::{Clausal, clausal};
use literal_selection::Selection;
use outside::{Files, MemFile, SureLibrary};
use plain_types::{Mem, NoMemory, Text};
use pool_core::{Options, Outcome};
use pool_writer::write_refutation;
use std::alloc::Global;
use std::env;
use std::process::ExitCode;
use std::sync::Wait;
use std::sync::atomic::{AtomicU64, Ordering};
use std::thread;
use std::thread::Threads;
use tptp_problem::read_problem;
use tptp_tree::Problem;
use tstp_checker::check;
use worker_team::{Gate, NoGate, Proved, prove_clauses};

const PROBLEMS: u64 = 1000;
const FILE: &str = "s.p";

/// A clause has one to three literals, over these atoms.
const ATOMS: [&str; 12] = [
    "p(a)", "p(X)", "p(f(X))", "q(a)", "q(Y)", "q(f(Y))", "r(X,Y)", "r(a,f(X))", "r(b,X)", "a = b", "f(X) = X", "f(a) = b",
];

fn options(split: bool) -> Options {
    Options {
        select: Selection::Negative,
        split,
        inferences: 100,
    }
}

/// Numbers that look random.
#[derive(Drop)]
struct Random {
    seed: u64,
}

impl Random {
    fn below(&mut self, bound: u64) -> u64 {
        self.seed = self.seed.wrapping_mul(6_364_136_223_846_793_005).wrapping_add(1_442_695_040_888_963_407);
        (self.seed >> 33) % bound
    }
}

/// A gate that holds each worker for a random time.
#[derive(Drop)]
struct DelayingGate {
    next: AtomicU64,
}

impl Gate for DelayingGate {
    fn pass(&self, _worker: u32, _job: u64) {
        let mut random = Random {
            seed: self.next.fetch_add(1, Ordering::SeqCst),
        };
        let _ = random.below(2);
        for _ in 0..random.below(200) {
            thread::yield_now();
        }
    }
}

fn text_of(alloc: Global, random: &mut Random) -> Mem<String> {
    let mut text = String::new(alloc);
    for place in 0..4 + random.below(8) {
        text.push_str(format!(in alloc; "cnf(c{place},axiom,")?.as_str())?;
        for literal in 0..1 + random.below(3) {
            if literal > 0 {
                text.push_str(" | ")?;
            }
            let atom = ATOMS[random.below(12) as usize];
            match (random.below(2) == 0, atom.split_once(" = ")) {
                (false, Some((left, right))) => text.push_str(format!(in alloc; "{left} != {right}")?.as_str())?,
                (false, None) => text.push_str(format!(in alloc; "~{atom}")?.as_str())?,
                (true, _) => text.push_str(atom)?,
            }
        }
        text.push_str(").\n")?;
    }
    Ok(text)
}

fn problem_of(alloc: Global, text: &str) -> Mem<(Problem, Clausal)> {
    let mut files = Files::new(alloc);
    files.push(MemFile::new(alloc, FILE, text.as_bytes())?)?;
    let mut library = SureLibrary::new(files);
    let Ok(problem) = read_problem(alloc, &mut library, FILE, None) else {
        return Err(NoMemory);
    };
    let Ok(form) = clausal(alloc, &problem) else {
        return Err(NoMemory);
    };
    Ok((problem, form))
}

/// Whether what was refuted has a derivation that is accepted.
fn is_accepted(alloc: Global, problem: &Problem, form: &Clausal, proved: &Proved) -> Mem<bool> {
    let text: Text = write_refutation(alloc, problem, form, &proved.pool, FILE.as_bytes())?;
    Ok(check(alloc, problem, form, text.as_slice()).is_ok())
}

/// Whether the two answers can both be right, and whether each refutation is accepted.
fn agree(alloc: Global, problem: &Problem, form: &Clausal, alone: &Proved, team: &Proved) -> Mem<bool> {
    Ok(match (alone.outcome, team.outcome) {
        (Outcome::Refuted, Outcome::Saturated) | (Outcome::Saturated, Outcome::Refuted) => false,
        (_, Outcome::Refuted) => is_accepted(alloc, problem, form, team)?,
        _ => true,
    })
}

#[derive(Drop)]
struct Figures {
    refuted: u64,
    saturated: u64,
    spent: u64,
    wrong: u64,
}

fn all<R: Threads + Wait + Sync>(rt: &R, host: &HostRuntime, first: u64, count: u64) -> Mem<Figures> {
    let alloc = host.alloc();
    let mut figures = Figures {
        refuted: 0,
        saturated: 0,
        spent: 0,
        wrong: 0,
    };
    for seed in first..first + count {
        if seed > first && (seed - first) % 100 == 0 {
            tell(host, &figures);
        }
        let mut random = Random { seed };
        let _ = random.below(2);
        let text = text_of(alloc, &mut random)?;
        let (problem, form) = problem_of(alloc, text.as_str())?;
        let options = options(random.below(2) == 0);
        let workers = 2 + random.below(15) as u32;
        let gate = DelayingGate {
            next: AtomicU64::new(seed * 1000),
        };
        let alone = prove_clauses(rt, alloc, &form.clauses, options, 1, &NoGate)?;
        let team = prove_clauses(rt, alloc, &form.clauses, options, workers, &gate)?;
        match team.outcome {
            Outcome::Refuted => figures.refuted += 1,
            Outcome::Saturated => figures.saturated += 1,
            Outcome::Spent(_) | Outcome::Heavy(_) => figures.spent += 1,
        }
        if !agree(alloc, &problem, &form, &alone, &team)? {
            figures.wrong += 1;
            let _ = println!(host; "problem {seed}, {workers} workers: another answer than one worker's\n{text}");
        }
    }
    Ok(figures)
}

fn tell(rt: &HostRuntime, figures: &Figures) {
    let _ = println!(rt; "{} refuted, {} saturated, {} spent, {} wrong", figures.refuted, figures.saturated, figures.spent, figures.wrong);
}

/// The number that the word of a place is, or another.
fn number_at(rt: &HostRuntime, place: usize, other: u64) -> u64 {
    match env::args(rt) {
        Ok(arguments) => arguments.skip(place).next().and_then(|word| word.as_str().parse::<u64>().ok()).unwrap_or(other),
        Err(_) => other,
    }
}

fn main(rt: HostRuntime) -> ExitCode {
    match all(&rt, &rt, number_at(&rt, 1, 0), number_at(&rt, 2, PROBLEMS)) {
        Ok(figures) => {
            tell(&rt, &figures);
            ExitCode::from(if figures.wrong == 0 { 0 } else { 1 })
        }
        Err(NoMemory) => ExitCode::from(7),
    }
}
