//! Times of the proved library beside those of the Rust source, in one process and on the same
//! inputs. Every result is compared by its bits before it is timed. Prints Markdown.

mod dispatched;
mod fixed;
mod growth;
mod kept;
mod orthonormaliser;
mod problem;
mod race;
mod root;
mod runs;
mod steps;

use race::Race;
use std::process::ExitCode;

fn main() -> ExitCode {
    let source = oracle::source();
    println!(
        "Nanoseconds, the least of {} turns taken in turn.\n",
        race::TURNS
    );
    if source.is_none() {
        let said = oracle::NOT_AVAILABLE;
        println!("The Rust source: {said}. Its times and the ratios are left out.\n");
    }
    let measured = table("the Rust source", || {
        let mut races = steps::races(source)?;
        races.extend(orthonormaliser::races(source)?);
        races.extend(runs::races(source)?);
        Ok(races)
    })
    .and_then(|()| table("the hardware", || Ok(vec![root::race()])))
    .and_then(|()| table("plain Rust with the dimension fixed", fixed::races))
    .and_then(|()| table("a plain run", kept::races))
    .and_then(|()| table("the same runs alone", dispatched::races))
    .and_then(|()| growth::tables());
    match measured {
        Ok(()) => ExitCode::SUCCESS,
        Err(message) => {
            eprintln!("bench: {message}");
            ExitCode::from(1)
        }
    }
}

/// A table of races against `other`. The races are made after the ones before have been run.
fn table(other: &str, races: impl FnOnce() -> Result<Vec<Race>, String>) -> Result<(), String> {
    println!("Beside {other}:\n");
    println!("| what | library | {other} | ratio | target | |");
    println!("|---|---:|---:|---:|---:|---|");
    for race in races()? {
        println!("{}", race.run());
    }
    println!();
    Ok(())
}
