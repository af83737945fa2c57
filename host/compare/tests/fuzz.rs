//! Fuzzing as a gate runs it.

use std::process::{Command, Output};

const RUNS: [&str; 3] = [
    "estimate_spectrum_at ",
    "estimate_spectrum ",
    "estimate_largest ",
];

const OF_A_STORE: [&str; 4] = ["empty_store ", "keep ", "go_on ", "forget "];

const OF_A_DISPATCHER: [&str; 4] = ["empty_dispatcher ", "next ", "hand_in ", "turn "];

fn fuzz(words: &[&str]) -> Output {
    Command::new(env!("CARGO_BIN_EXE_compare"))
        .arg("fuzz")
        .args(words)
        .output()
        .expect("the program runs")
}

#[test]
fn some_calls_show_no_difference() {
    let output = fuzz(&["--calls", "20000", "--seconds", "60", "--seed", "3"]);
    let text = String::from_utf8_lossy(&output.stdout).into_owned();
    assert_eq!(output.status.code(), Some(0), "{text}");
    for function in ["sqrt", "ln", "step", "build_config", "validate"]
        .into_iter()
        .chain(RUNS)
        .chain(OF_A_STORE)
        .chain(OF_A_DISPATCHER)
    {
        assert!(text.contains(function), "{function} in {text}");
    }
    assert!(text
        .lines()
        .last()
        .is_some_and(|line| line.ends_with(" 20000")));
}

#[test]
fn the_same_seed_makes_the_same_calls() {
    let words = ["--calls", "500", "--seed", "9"];
    assert_eq!(fuzz(&words).stdout, fuzz(&words).stdout);
}

#[test]
fn bad_usage() {
    for words in [&["--calls"][..], &["--calls", "x"], &["--colour", "1"]] {
        assert_eq!(fuzz(words).status.code(), Some(2));
    }
}
