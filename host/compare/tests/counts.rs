//! The comparisons meet every combination of counts that are over.

use std::process::Command;

const OVER: [&str; 15] = [
    "steps over",
    "windows over",
    "steps and windows over",
    "warm-up over",
    "steps and warm-up over",
    "windows and warm-up over",
    "steps and windows and warm-up over",
    "warm-up steps over",
    "steps and warm-up steps over",
    "windows and warm-up steps over",
    "steps and windows and warm-up steps over",
    "warm-up and warm-up steps over",
    "steps and warm-up and warm-up steps over",
    "windows and warm-up and warm-up steps over",
    "all counts over",
];

fn compared(name: &str) -> String {
    let output = Command::new(env!("CARGO_BIN_EXE_compare"))
        .args([name, "--count", "9000"])
        .output()
        .expect("the program runs");
    let text = String::from_utf8_lossy(&output.stdout).into_owned();
    assert_eq!(output.status.code(), Some(0), "{text}");
    text
}

#[test]
fn every_combination_is_met_in_few_inputs() {
    for name in ["settings", "validate", "runs"] {
        let text = compared(name);
        for over in OVER {
            let line = format!("  refused by 5, {over}: ");
            assert!(text.contains(&line), "{name}: {over} in {text}");
        }
        assert_eq!(text.matches("refused by 5").count(), OVER.len(), "{text}");
    }
}

/// The run for the largest exponent has no warm-up windows.
#[test]
fn runs_from_time_0_meet_them_too() {
    let text = compared("from-zero");
    for over in OVER {
        let times = if over.contains("warm-up") || over.contains("all") {
            1
        } else {
            2
        };
        let line = format!("  refused by 5, {over}: ");
        assert_eq!(text.matches(&line).count(), times, "{over} in {text}");
    }
}
