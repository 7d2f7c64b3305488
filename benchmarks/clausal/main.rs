// Times the reading of a problem and the making of its clausal form. The file's name is the one argument.
#![tactic(auto)]

use clausal_form::{FormFault, clausal};
use outside::FileLibrary;
use std::env;
use std::io;
use std::time::Instant;
use tptp_problem::read_problem;

fn timed(rt: &HostRuntime, file: &str) -> io::Result<()> {
    let alloc = rt.alloc();
    let mut library = FileLibrary::new(rt);
    let start = Instant::now(rt)?;
    let Ok(problem) = read_problem(alloc, &mut library, file, None) else {
        println!(rt; "not read")?;
        return Ok(());
    };
    let reading = start.elapsed(rt)?.as_millis();
    let start = Instant::now(rt)?;
    let form = clausal(alloc, &problem);
    let forming = start.elapsed(rt)?.as_millis();
    match form {
        Ok(form) => {
            let clauses = form.clauses.len();
            let symbols = form.signature.len();
            println!(rt; "read in {reading} ms, formed in {forming} ms: {clauses} clauses, {symbols} symbols")?;
        }
        Err(FormFault::NoMemory) => println!(rt; "read in {reading} ms, no memory after {forming} ms")?,
        Err(FormFault::Refused(cause, _)) => {
            println!(rt; "read in {reading} ms, {cause:?} after {forming} ms")?;
        }
    }
    Ok(())
}

fn main(rt: HostRuntime) -> io::Result<()> {
    for file in env::args(&rt)?.skip(1) {
        timed(&rt, file.as_str())?;
    }
    Ok(())
}
