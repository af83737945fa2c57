//! The stability panel on the command line: rates, dimension, entropy and faint counts of a run.

mod choice;
mod circuit;
mod json;
mod measured;
mod options;
mod progress;
mod rows;
mod spectra;
mod svg;
mod text;
mod turns;

use measured::{measured, Measured};
use options::{Command, Options};
use std::io::Write as _;
use std::path::{Path, PathBuf};
use std::process::ExitCode;

/// The exit status for unfit input and refused runs.
const UNFIT: u8 = 2;
/// The exit status of a program that an interrupt ends.
const INTERRUPTED: u8 = 130;

fn main() -> ExitCode {
    let words: Vec<String> = match words() {
        Ok(words) => words,
        Err(message) => return unfit(&message),
    };
    match options::read(&words) {
        Ok(Command::Help) => answer(print(options::HELP).map(|()| ExitCode::SUCCESS)),
        Ok(Command::Spectra) => answer(spectra::compared().and_then(|(text, all_near)| {
            print(&text)?;
            Ok(ExitCode::from(u8::from(!all_near)))
        })),
        Ok(Command::Run(options)) => run(&options),
        Err(message) => unfit(&format!("{message}; see --help")),
    }
}

/// The words of the command line, which must be Unicode.
fn words() -> Result<Vec<String>, String> {
    let unicode = |word: std::ffi::OsString| {
        word.into_string()
            .map_err(|word| format!("{} is not Unicode", word.display()))
    };
    std::env::args_os().skip(1).map(unicode).collect()
}

fn answer(status: Result<ExitCode, String>) -> ExitCode {
    status.unwrap_or_else(|message| unfit(&message))
}

fn unfit(message: &str) -> ExitCode {
    tell(message);
    ExitCode::from(UNFIT)
}

/// Where nobody reads standard error, there is nobody to tell.
fn tell(message: &str) {
    let _ = writeln!(std::io::stderr(), "panel: {message}");
}

/// Prints what was measured, then writes the files that were asked for, even where nobody reads what
/// is printed. A run that was refused or interrupted has the windows that it finished.
fn run(options: &Options) -> ExitCode {
    let (measured, around) = (measured(options), &options.around);
    let report = if around.json {
        json::report(&measured)
    } else {
        text::report(&measured)
    };
    let any_window = |_: &&PathBuf| measured.iter().any(|one| one.windows().next().is_some());
    let rows = around.rows.as_ref().filter(any_window);
    let svg = around.svg.as_ref().filter(any_window);
    let done = [
        print(&report),
        rows.map_or(Ok(()), |file| write(file, &rows::csv(&measured))),
        svg.map_or(Ok(()), |file| write(file, &svg::drawing(&measured))),
    ];
    let failures = done.into_iter().filter_map(Result::err);
    let messages: Vec<String> = failures
        .chain(measured.iter().flat_map(text::stops))
        .collect();
    for message in &messages {
        tell(message);
    }
    let interrupted = measured.iter().any(Measured::interrupted);
    ExitCode::from(match (interrupted, messages.is_empty()) {
        (true, _) => INTERRUPTED,
        (false, false) => UNFIT,
        (false, true) => 0,
    })
}

fn print(text: &str) -> Result<(), String> {
    std::io::stdout()
        .write_all(text.as_bytes())
        .map_err(|error| format!("standard output: {error}"))
}

fn write(file: &Path, text: &str) -> Result<(), String> {
    std::fs::write(file, text).map_err(|error| format!("{}: {error}", file.display()))
}
