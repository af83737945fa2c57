//! Warm-up windows with steps of their own.

use super::{assert_unfit, json, panel, stdout};

/// A run of 5 warm-up windows and 20 measured ones of 10 steps each, with these words beside.
fn run(words: &[&str]) -> String {
    let short = ["--windows=20", "--warm-up=5", "--steps=10"];
    let output = panel(&[&short, words].concat());
    assert_eq!(output.status.code(), Some(0), "{words:?}");
    stdout(&output)
}

fn value(words: &[&str]) -> json::Value {
    let text = run(&[words, &["--json"]].concat());
    json::read(&text).expect("JSON")
}

#[test]
fn equal_steps_are_the_same_run() {
    for more in [&[][..], &["--json"], &["--then=3"]] {
        let given = [&["--warm-up-steps=10"], more].concat();
        assert_eq!(run(&given), run(more));
    }
}

#[test]
fn they_are_told_and_counted() {
    let text = run(&["--warm-up-steps", "40"]);
    let told = "steps a window 10, windows 20 after 5 of warm-up with 40 steps each, seed";
    assert!(text.contains(told), "{text}");
    assert!(run(&[]).contains("windows 20 after 5 of warm-up, seed"));
    let settled = value(&["--warm-up-steps=40"]);
    let steps = |value: &json::Value| value.field("steps").float();
    assert_eq!(settled.field("steps_per_transient_window").float(), 40.0);
    assert_eq!(steps(&settled), 5.0 * 40.0 + 20.0 * 10.0);
    let plain = value(&[]);
    assert_eq!(plain.field("steps_per_transient_window").float(), 10.0);
    assert_eq!(steps(&plain), 25.0 * 10.0);
    let times = [&settled, &plain].map(|value| value.field("measured_time").float());
    assert_eq!(times[0], times[1]);
}

/// Fewer rates stay as they are, and so do those of a longer run that goes on.
#[test]
fn bars_hold_still() {
    let rates = |words: &[&str]| {
        let given = [&["--warm-up-steps=40"], words].concat();
        value(&given).field("exponents").floats()
    };
    let all = rates(&[]);
    for k in 1..3 {
        assert_eq!(rates(&["-k", &k.to_string()]), all[..k]);
    }
    let value = value(&["--warm-up-steps=40", "--then=7"]);
    let continued = &value.field("continuations").entries()[0];
    let longer = rates(&["--windows=27"]);
    assert_eq!(continued.field("exponents").floats(), longer);
}

/// A direction that shrinks so fast that 270 steps are too many.
#[test]
fn faint_warm_up_windows_are_warned_of() {
    let linear = [
        "--system=linear",
        "--matrix=-1.596",
        "--step=1",
        "--steps=1",
    ];
    let text = run(&[&linear[..], &["--warm-up-steps=270"]].concat());
    assert!(text.contains("WARNING: direction 0 became so short in 5 of 25 windows"));
    let cure = "(--steps, now 1; in the warm-up --warm-up-steps, now 270)";
    assert!(text.contains(cure), "{text}");
}

#[test]
fn refusals_name_the_option() {
    for warm_up in ["--warm-up=0", "--warm-up=5"] {
        assert_unfit(
            &[warm_up, "--warm-up-steps=0"],
            "refused by 29 at place 0: a warm-up window has no steps (--warm-up-steps)",
        );
        assert_unfit(
            &[warm_up, "--warm-up-steps=16777217"],
            "refused by 5 at place 3: steps_per_transient_window is above 16777216 (--warm-up-steps)",
        );
    }
    assert_unfit(&["--windows=0", "--warm-up-steps=0"], "refused by 4");
    assert_unfit(
        &["--warm-up=16777217", "--warm-up-steps=16777217"],
        "refused by 5 at place 2: transient_windows is above 16777216 (--warm-up)",
    );
    assert_unfit(
        &["--warm-up=16777217", "--warm-up-steps=0"],
        "refused by 29",
    );
}
