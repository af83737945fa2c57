//! Compares the proved library with the Rust source and with the model of document 01.

mod bytes;
mod cases;
mod circuit;
mod commands;
mod generate;
mod lent;
mod line;
mod random;
mod tally;
mod values;

use circuit::Systems;
use commands::{Inputs, Limits};
use std::path::{Path, PathBuf};
use std::process::ExitCode;

const USAGE: &str = "usage:
  compare cases FILE [--program PATH]    replay a list of cases; PATH is the program spectrum
  compare leaves --count N               root, logarithm and generator on N patterns each
  compare step --count N                 steps on their own
  compare orthonormalise --count N       the orthonormaliser on its own
  compare settings --count N             settings that are built
  compare validate --count N             the tests of runs that do not look at outputs
  compare runs --count N                 whole runs
  compare from-zero --count N            runs by estimate_spectrum and estimate_largest
  compare pairs --count N                runs for k and for K exponents (demand 3)
  compare later-pairs --count N          the same of runs that are kept and gone on with
  compare dispatched-pairs --count N     the same of runs that take turns with others
  compare stores --count N               lists of calls that keep states, go on and forget
  compare dispatch --count N             lists of hand-ins and turns of runs side by side
  compare rates --count N                dimension and entropy
  compare fuzz [--seconds N] [--calls N] [--seed S]
                                         calls from random bytes, for N seconds (20) or N calls
  compare write-list FILE                write the fixed list of answers
Generated inputs are the same for the same N and the same --seed S (1). With --system NAME (lorenz,
rossler, vdp, linear or lorenz96) the inputs of step, runs and pairs are of that system alone, no
test before a step refuses them but 15, and every dimension must be met with every K.
Exit status: 0 nothing differs, 1 something differs or was not met, 2 bad usage.";

fn main() -> ExitCode {
    let words: Vec<String> = std::env::args().skip(1).collect();
    let words: Vec<&str> = words.iter().map(String::as_str).collect();
    match command(&words) {
        Ok(true) => ExitCode::SUCCESS,
        Ok(false) => ExitCode::from(1),
        Err(message) => {
            eprintln!("{message}");
            ExitCode::from(2)
        }
    }
}

/// Runs the command; `Ok(false)` where something differs.
fn command(words: &[&str]) -> Result<bool, String> {
    match words {
        ["cases", file] => replay(file, None),
        ["cases", file, "--program", path] => replay(file, Some(PathBuf::from(path))),
        ["write-list", file] => write_list(file),
        ["fuzz", limits @ ..] => Ok(commands::fuzz(&read_limits(limits)?)),
        [name, options @ ..] => compare(name, options),
        [] => Err(USAGE.to_string()),
    }
}

fn number(text: &str) -> Result<u64, String> {
    text.parse().map_err(|_| format!("{text} is no number"))
}

fn read_limits(words: &[&str]) -> Result<Limits, String> {
    let mut limits = Limits::default();
    for pair in words.chunks(2) {
        match pair {
            ["--seconds", value] => limits.seconds = number(value)?,
            ["--calls", value] => limits.calls = number(value)?,
            ["--seed", value] => limits.seed = number(value)?,
            _ => return Err(USAGE.to_string()),
        }
    }
    Ok(limits)
}

fn read_inputs(words: &[&str]) -> Result<Inputs, String> {
    let (mut count, mut seed, mut systems) = (None, 1, Systems::All);
    for pair in words.chunks(2) {
        match pair {
            ["--count", value] => count = Some(number(value)?),
            ["--seed", value] => seed = number(value)?,
            ["--system", name] => systems = Systems::named(name)?,
            _ => return Err(USAGE.to_string()),
        }
    }
    let count = count.ok_or(USAGE)?;
    Ok(Inputs {
        count,
        seed,
        systems,
    })
}

/// Runs the comparison `name` on generated inputs.
fn compare(name: &str, words: &[&str]) -> Result<bool, String> {
    let compare = match name {
        "leaves" => commands::leaves,
        "step" => commands::step,
        "orthonormalise" => commands::orthonormalise,
        "settings" => commands::settings,
        "validate" => commands::validate,
        "runs" => commands::runs,
        "from-zero" => commands::from_zero,
        "pairs" => commands::pairs,
        "later-pairs" => commands::later_pairs,
        "dispatched-pairs" => commands::dispatched_pairs,
        "stores" => commands::stores,
        "dispatch" => commands::dispatch,
        "rates" => commands::rates,
        _ => return Err(USAGE.to_string()),
    };
    let inputs = read_inputs(words)?;
    if inputs.systems != Systems::All && !["step", "runs", "pairs"].contains(&name) {
        return Err(format!(
            "--system goes with step, runs and pairs only, not with {name}"
        ));
    }
    Ok(compare(inputs))
}

fn replay(file: &str, program: Option<PathBuf>) -> Result<bool, String> {
    let text = std::fs::read_to_string(file).map_err(|error| format!("{file}: {error}"))?;
    commands::replay(&text, program.as_deref().map(Path::new))
        .map_err(|error| format!("{file}, {error}"))
}

fn write_list(file: &str) -> Result<bool, String> {
    let list = commands::write_list()?;
    std::fs::write(file, list).map_err(|error| format!("{file}: {error}"))?;
    Ok(true)
}
