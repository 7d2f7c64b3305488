// Solves the clauses of files in the DIMACS form, without comment lines: `solving FILE ..`. It prints what each file is answered with. It stands as `src/main.rt`
// in a crate over `plain_types` and `sat_core`.
#![tactic(auto)]

use plain_types::{Mem, NameLit, Names};
use sat_core::{Answer, PropClauses, names_are_below, solve};
use std::alloc::Global;
use std::env;
use std::fs;
use std::process::ExitCode;

/// Clauses, and how many names they are over.
struct Problem {
    names: u32,
    clauses: PropClauses,
}

/// The signed name that a number of the DIMACS form stands for, which counts names from 1; 0, which ends a clause, stands for none.
fn signed_name(number: i32) -> Option<NameLit> {
    let positive = number > 0;
    let name = number.unsigned_abs().checked_sub(1)?;
    Some(NameLit { positive, name })
}

/// The clauses of a text: a line `p cnf NAMES CLAUSES`, then numbers; a word that is no number is passed over.
fn read(alloc: Global, text: &str) -> Mem<Problem> {
    let mut names = 0;
    let mut clauses = PropClauses::new(alloc);
    let mut clause = Names::new(alloc);
    for (index, word) in text.split_whitespace().enumerate() {
        let Ok(number) = word.parse::<i32>() else {
            continue;
        };
        if index == NAMES_WORD {
            names = number.unsigned_abs();
        } else if index > CLAUSES_WORD {
            match signed_name(number) {
                Some(literal) => clause.push(literal)?,
                None => {
                    clauses.push(clause.as_slice())?;
                    clause = Names::new(alloc);
                }
            }
        }
    }
    Ok(Problem { names, clauses })
}

/// The words of the first line that tell how many names there are, and how many clauses.
const NAMES_WORD: usize = 2;
const CLAUSES_WORD: usize = 3;

fn solve_file(rt: &HostRuntime, path: &str) -> Mem<()> {
    let Ok(text) = fs::read_to_string(rt, path) else {
        let _ = println!(rt; "{path}: can't be read");
        return Ok(());
    };
    let Problem { names, clauses } = read(rt.alloc(), text.as_str())?;
    if !names_are_below(&clauses, names) {
        let _ = println!(rt; "{path}: a name that isn't told of");
        return Ok(());
    }
    match solve(rt.alloc(), &clauses, names)? {
        Answer::Model(_) => {
            let _ = println!(rt; "{path}: model");
        }
        Answer::Refuted(log) => {
            let count = log.as_slice().len();
            let _ = println!(rt; "{path}: refuted by {count} chains");
        }
    }
    Ok(())
}

fn run(rt: &HostRuntime) -> Mem<()> {
    if let Ok(arguments) = env::args(rt) {
        for path in arguments.skip(1) {
            solve_file(rt, path.as_str())?;
        }
    }
    Ok(())
}

fn main(rt: HostRuntime) -> ExitCode {
    match run(&rt) {
        Ok(()) => ExitCode::SUCCESS,
        Err(_) => ExitCode::from(7),
    }
}
