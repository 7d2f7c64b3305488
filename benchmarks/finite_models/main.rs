// Times the search for a finite model of files: `finite_models FILE ..`, sizes 1 to 8. It stands as `src/main.rs` in a crate over
// `finite_models`, `clausal_form`, `tptp_problem`, `outside` and what these stand on.
#![tactic(auto)]

use clausal_form::{FormFault, clausal};
use finite_models::{Found, find_model, measure};
use outside::FileLibrary;
use std::env;
use std::io;
use std::time::Instant;
use tptp_problem::read_problem;

/// The largest size that is tried.
const MOST_SIZE: u32 = 8;

fn timed(rt: &HostRuntime, file: &str) -> io::Result<()> {
    let alloc = rt.alloc();
    let mut library = FileLibrary::new(rt);
    let Ok(problem) = read_problem(alloc, &mut library, file, None) else {
        println!(rt; "{file}: not read")?;
        return Ok(());
    };
    let form = match clausal(alloc, &problem) {
        Ok(form) => form,
        Err(_) => {
            println!(rt; "{file}: no form")?;
            return Ok(());
        }
    };
    let start = Instant::now(rt)?;
    let found = find_model(alloc, &form, MOST_SIZE);
    let time = start.elapsed(rt)?.as_millis();
    match found {
        Ok(Found::Model(model)) => {
            let size = model.size;
            let most = measure(&form, size);
            println!(rt; "{file}: a model of size {size}, measure {most}, in {time} ms")?;
            for cell in model.cells.as_slice() {
                let symbol = cell.symbol;
                let value = cell.value;
                print!(rt; "{symbol}(")?;
                for argument in cell.arguments.as_slice() {
                    print!(rt; " {argument}")?;
                }
                println!(rt; " ) = {value}")?;
            }
        }
        Ok(Found::NoModel) => println!(rt; "{file}: no model, in {time} ms")?,
        Ok(Found::TooLarge(size)) => println!(rt; "{file}: too large at size {size}, in {time} ms")?,
        Err(_) => println!(rt; "{file}: out of memory after {time} ms")?,
    }
    Ok(())
}

fn main(rt: HostRuntime) -> io::Result<()> {
    for file in env::args(&rt)?.skip(1) {
        timed(&rt, file.as_str())?;
    }
    Ok(())
}
