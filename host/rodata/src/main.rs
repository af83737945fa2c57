//! Tells what the root and the logarithm hold in read-only memory, and fails where it is more than
//! document 02, e) allows.

use rodata::elf::Object;
use rodata::object::{brought, Brought, FUNCTIONS, MOST_BYTES};
use rodata::{edits, source};
use std::fs;
use std::path::Path;
use std::process::ExitCode;

const USAGE: &str = "usage:
  rodata source ROOT      the code below ROOT: no array, each of the logarithm's constants once, and a
                          must-fail edit for the last digit of each
  rodata object OBJECT    the compiled library: the read-only data that lyapunov_sqrt and lyapunov_ln
                          bring into a program that calls only them
Exit status: 0 nothing is wrong, 1 something is, 2 bad usage or a file that can't be read.";

fn main() -> ExitCode {
    let words: Vec<String> = std::env::args().skip(1).collect();
    let words: Vec<&str> = words.iter().map(String::as_str).collect();
    let faults = match words[..] {
        ["source", root] => read_source(Path::new(root)),
        ["object", file] => read_object(file),
        _ => Err(USAGE.to_string()),
    };
    match faults {
        Err(message) => {
            eprintln!("{message}");
            ExitCode::from(2)
        }
        Ok(faults) => {
            for fault in &faults {
                println!("{fault}");
            }
            ExitCode::from(u8::from(!faults.is_empty()))
        }
    }
}

fn read_source(root: &Path) -> Result<Vec<String>, String> {
    let read = source::read(root)?;
    let crates = read.crates.join(", ");
    println!(
        "{} files of {crates} read for arrays and constants",
        read.files
    );
    let mut faults = read.faults;
    for name in edits::missing(root)? {
        faults.push(format!(
            "no must-fail edit changes the last digit of {name}"
        ));
    }
    if faults.is_empty() {
        println!("no array, each of 9 constants once, and an edit of the last digit of each");
    }
    Ok(faults)
}

fn read_object(file: &str) -> Result<Vec<String>, String> {
    let bytes = fs::read(file).map_err(|error| format!("{file}: {error}"))?;
    let told = |message: String| format!("{file}: {message}");
    let object = Object::read(&bytes).map_err(told)?;
    for function in FUNCTIONS {
        tell(function, &brought(&object, &[function]).map_err(told)?);
    }
    let both = brought(&object, &FUNCTIONS).map_err(told)?;
    tell("both", &both);
    println!("allowed: {MOST_BYTES} bytes of read-only data, no table, and each constant once");
    Ok(both.faults())
}

fn tell(name: &str, brought: &Brought) {
    let (data, entries) = (brought.data_bytes(), brought.data.len());
    let code = brought.code_bytes();
    println!("{name}: {data} bytes of read-only data in {entries} entries, {code} of code");
}
