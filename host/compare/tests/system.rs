//! Comparisons of one system, as a gate runs them.

use std::process::{Command, Output};

fn compare(words: &[&str]) -> Output {
    Command::new(env!("CARGO_BIN_EXE_compare"))
        .args(words)
        .output()
        .expect("the program runs")
}

#[test]
fn a_comparison_meets_one_system_in_every_size() {
    for name in ["step", "runs", "pairs"] {
        let output = compare(&[name, "--system", "lorenz96", "--count", "20000"]);
        let text = String::from_utf8_lossy(&output.stdout).into_owned();
        assert_eq!(output.status.code(), Some(0), "{text}");
        assert!(text.contains("130 of 130 sizes met"), "{text}");
        for other in ["Lorenz:", "Rossler", "van der Pol", "linear", "by 25"] {
            assert!(!text.contains(other), "{other} in {text}");
        }
    }
}

#[test]
fn the_options_stand_in_any_order() {
    let one = compare(&["step", "--count", "50", "--seed", "3", "--system", "vdp"]);
    let other = compare(&["step", "--system", "vdp", "--seed", "3", "--count", "50"]);
    assert_eq!(one.status.code(), Some(0));
    assert_eq!(one.stdout, other.stdout);
}

#[test]
fn bad_usage() {
    for words in [
        &["runs"][..],
        &["runs", "--system", "lorenz96"],
        &["runs", "--count", "1", "--system"],
        &["runs", "--count", "1", "--system", "duffing"],
        &["rates", "--count", "1", "--system", "lorenz96"],
        &["rings", "--count", "1"],
        &[],
    ] {
        assert_eq!(compare(words).status.code(), Some(2), "{words:?}");
    }
}
