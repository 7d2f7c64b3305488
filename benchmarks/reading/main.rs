// Times the tokens of each file that is named, and the reading of its problem.
#![tactic(auto)]

use outside::{FileLibrary, Library};
use std::env;
use std::io;
use std::time::Instant;
use tptp_problem::read_problem;
use tptp_token::{MOST_TEXT_BYTES, tokens};

fn timed(rt: &HostRuntime, file: &str) -> io::Result<()> {
    let alloc = rt.alloc();
    let mut library = FileLibrary::new(rt);
    let Ok(bytes) = library.load(alloc, file, MOST_TEXT_BYTES) else {
        println!(rt; "{file}: not loaded")?;
        return Ok(());
    };
    let start = Instant::now(rt)?;
    let Ok(lexed) = tokens(alloc, bytes.as_slice()) else {
        println!(rt; "{file}: no memory")?;
        return Ok(());
    };
    let lexing = start.elapsed(rt)?.as_millis();
    let count = lexed.tokens.len();
    drop(lexed);
    let start = Instant::now(rt)?;
    let Ok(problem) = read_problem(alloc, &mut library, file, None) else {
        println!(rt; "{file}: {count} tokens in {lexing} ms, not read")?;
        return Ok(());
    };
    let reading = start.elapsed(rt)?.as_millis();
    let formulas = problem.formulas.len();
    println!(rt; "{file}: {count} tokens in {lexing} ms, {formulas} formulas in {reading} ms")?;
    Ok(())
}

fn main(rt: HostRuntime) -> io::Result<()> {
    for file in env::args(&rt)?.skip(1) {
        timed(&rt, file.as_str())?;
    }
    Ok(())
}
