// Times the selection on a made problem: axioms of ten symbols each, and one goal. The words are how many axioms, how many symbols, the tolerance
// and the depth.
#![tactic(auto)]

use axiom_filter::select;
use plain_types::{Mem, Text};
use sample::Random;
use std::alloc::Global;
use std::env;
use std::io;
use std::time::Instant;
use tptp_tree::{
    Annotated, AnnotatedList, FileName, Formula, Formulas, Problem, Role, TreeTerms,
};

const SYMBOLS_OF_A_FORMULA: u32 = 10;

/// A conjunction of ten nullary predicates. Lower numbers are more frequent.
fn formula(alloc: Global, random: &mut Random, symbols: u64) -> Mem<Formula> {
    let mut atoms = Formulas::new(alloc);
    for _atom in 0..SYMBOLS_OF_A_FORMULA {
        let bound = 1 + random.below(symbols);
        let number = random.below(bound);
        let name = format!(in alloc; "p{number}")?;
        let name = Text::from_vec(name.into_bytes());
        atoms.push(Formula::Pred(name, TreeTerms::new(alloc)))?;
    }
    Ok(Formula::And(atoms))
}

fn problem(alloc: Global, axioms: u64, symbols: u64) -> Mem<Problem> {
    let mut random = Random::new(1);
    let mut formulas = AnnotatedList::new(alloc);
    for number in 0..axioms + 1 {
        let role = if number == axioms { Role::Conjecture } else { Role::Axiom };
        formulas.push(Annotated {
            name: Text::new(alloc),
            role,
            clause: false,
            formula: formula(alloc, &mut random, symbols)?,
            file: FileName::empty(),
            place: 0,
        })?;
    }
    Ok(Problem { formulas })
}

fn main(rt: HostRuntime) -> io::Result<()> {
    let alloc = rt.alloc();
    let mut words = env::args(&rt)?.skip(1);
    let mut number = |otherwise: u64| match words.next() {
        Some(word) => word.as_str().parse::<u64>().unwrap_or(otherwise),
        None => otherwise,
    };
    let axioms = number(100_000);
    let symbols = number(50_000);
    let tolerance = number(120) as u32;
    let depth = number(50) as u32;
    let Ok(problem) = problem(alloc, axioms, symbols) else {
        println!(rt; "no memory")?;
        return Ok(());
    };
    let start = Instant::now(&rt)?;
    match select(alloc, &problem, tolerance, depth) {
        Ok(kept) => {
            let time = start.elapsed(&rt)?.as_millis();
            let count = kept.len();
            println!(rt; "{count} of {axioms} axioms and the goal kept in {time} ms")?;
        }
        Err(_) => println!(rt; "no memory")?,
    }
    Ok(())
}
