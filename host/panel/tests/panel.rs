//! The panel as a user meets it: words in, text and exit status out.

mod circuits;
mod interrupt;
mod json;
mod warm_up;

use std::fs;
use std::path::PathBuf;
use std::process::{Command, Output};

fn panel(words: &[&str]) -> Output {
    Command::new(env!("CARGO_BIN_EXE_panel"))
        .args(words)
        .output()
        .expect("the panel runs")
}

fn stdout(output: &Output) -> String {
    String::from_utf8(output.stdout.clone()).expect("text")
}

fn stderr(output: &Output) -> String {
    String::from_utf8(output.stderr.clone()).expect("text")
}

/// A file of this test's own.
fn scratch(name: &str) -> PathBuf {
    let file = PathBuf::from(env!("CARGO_TARGET_TMPDIR")).join(name);
    let _ = fs::remove_file(&file);
    file
}

fn assert_unfit(words: &[&str], message: &str) {
    let output = panel(words);
    assert_eq!(output.status.code(), Some(2), "{words:?}");
    let told = stderr(&output);
    assert!(told.contains(message), "{words:?}: {told}");
    assert!(stdout(&output).is_empty(), "{words:?}");
}

#[test]
fn without_options_it_is_near_the_known_values() {
    let output = panel(&["--json"]);
    assert_eq!(output.status.code(), Some(0), "{}", stderr(&output));
    let value = json::read(&stdout(&output)).expect("JSON");
    let rates = value.field("exponents").floats();
    let known = [0.906, 0.0, -14.572];
    for (rate, known) in rates.iter().zip(known) {
        assert!((rate - known).abs() < 0.01, "{rate} {known}");
    }
    assert_eq!(rates.len(), 3);
    let dimension = value.field("kaplan_yorke_dimension").float();
    assert!((dimension - 2.062).abs() < 0.002, "{dimension}");
    assert_eq!(value.field("faint_counts").floats(), [0.0, 0.0, 0.0]);
    assert_eq!(value.field("seed").text(), "0x4c594150554e4f56");
}

/// The JSON of a ring with these words beside, and a short run.
fn ring(words: &[&str]) -> json::Value {
    let ring = ["--system=lorenz96", "--windows=2000", "--json"];
    let output = panel(&[&ring, words].concat());
    assert_eq!(output.status.code(), Some(0), "{}", stderr(&output));
    json::read(&stdout(&output)).expect("JSON")
}

#[test]
fn a_ring_is_chaotic_and_loses_volume() {
    let value = ring(&[]);
    let rates = value.field("exponents").floats();
    assert_eq!(rates.len(), 8);
    assert!((rates[0] - 1.6).abs() < 0.3, "{}", rates[0]);
    let sum: f64 = rates.iter().sum();
    assert!((sum + 8.0).abs() < 0.001, "{sum}");
    assert_eq!(value.field("parameters").floats(), [8.0]);
    assert_eq!(value.field("matrix").floats(), []);
    assert_eq!(value.field("state_dimension").float(), 8.0);
}

#[test]
fn a_ring_starts_beside_its_rest() {
    for cells in ["4", "16"] {
        for forcing in ["0", "1", "-2.5"] {
            let forced = ["--dimension", cells, "--parameters", forcing];
            let value = ring(&forced);
            let state = value.field("initial_state").floats();
            assert_eq!(state.len(), cells.parse().expect("a count"));
            let forcing: f64 = forcing.parse().expect("a float");
            assert_ne!(state[0], forcing);
            assert!(state[1..].iter().all(|cell| *cell == forcing), "{state:?}");
        }
    }
}

#[test]
fn more_rates_leave_the_earlier_bars_of_a_ring() {
    let all = ring(&["--dimension=5"]).field("exponents").floats();
    for k in 1..5 {
        let few = ring(&["--dimension=5", "-k", &k.to_string()]);
        assert_eq!(few.field("exponents").floats(), all[..k]);
    }
}

#[test]
fn the_text_of_a_ring_has_its_cells_and_its_forcing() {
    let output = panel(&["--system=lorenz96", "--dimension=5", "--windows=10"]);
    let text = stdout(&output);
    assert!(
        text.starts_with("lorenz96, dimension 5, forcing 8\n"),
        "{text}"
    );
    assert!(text.contains("from (8.01, 8, 8, 8, 8) at time 0"), "{text}");
}

#[test]
fn the_text_has_rates_dimension_entropy_and_faint_counts() {
    let output = panel(&["--windows", "2000"]);
    assert_eq!(output.status.code(), Some(0));
    let text = stdout(&output);
    for words in [
        "lorenz, sigma 10",
        "direction",
        "faint windows",
        "dimension",
        "entropy",
    ] {
        assert!(text.contains(words), "{words} in {text}");
    }
    assert!(!text.contains("WARNING"));
}

#[test]
fn a_spectrum_without_a_positive_rate_has_no_entropy() {
    let words = ["--system=linear", "--matrix=-1,0,0,-2", "--windows=10"];
    let text = stdout(&panel(&words));
    assert!(text.contains("entropy   0.000000\n"), "{text}");
    let json = stdout(&panel(&[&words[..], &["--json"]].concat()));
    let exact = "\"kolmogorov_sinai_entropy\":-0.0,";
    assert!(json.contains(exact), "{json}");
}

#[test]
fn faint_windows_are_warned_of() {
    let matrix = "-0.2,1,0,0,-1,-0.2,0,0,0,0,-7.5,1,0,0,0,-8.5";
    let long = ["--system=linear", "--matrix", matrix, "--state=1,0,0,0"];
    let run = |more: &[&str]| stdout(&panel(&[&long, more].concat()));
    let text = run(&["--steps=4000", "--windows=20", "--warm-up=0"]);
    assert!(text.contains("WARNING: direction 3"), "{text}");
    assert!(text.contains("shorter windows"), "{text}");
    assert!(text.contains("--steps, now 4000"), "{text}");
    let text = run(&["--steps=10", "--windows=2000"]);
    assert!(!text.contains("WARNING"), "{text}");
}

#[test]
fn json_is_valid_whatever_the_numbers() {
    // Windows so short that a rate overflows.
    let words = [
        "--system=linear",
        "--matrix=1",
        "--step=5e-324",
        "--windows=1",
        "--json",
    ];
    let output = panel(&words);
    json::read(&stdout(&output)).expect("JSON");
    let words = [
        "--system=linear",
        "--matrix=100",
        "--step=1",
        "--warm-up=0",
        "--json",
    ];
    let output = panel(&words);
    assert_eq!(output.status.code(), Some(2));
    let value = json::read(&stdout(&output)).expect("JSON");
    let refused = value.field("refused");
    assert_eq!(refused.field("number").float(), 16.0);
    assert_eq!(refused.field("finished_windows").float(), 4.0);
    for words in [
        ["--parameters", "nan,inf,-inf", "--json"],
        ["-k", "0", "--json"],
    ] {
        let output = panel(&words);
        assert_eq!(output.status.code(), Some(2));
        let value = json::read(&stdout(&output)).expect("JSON");
        assert!(value.field("refused").field("number").float() > 0.0);
    }
}

#[test]
fn rows_have_a_header_and_a_line_a_window() {
    let file = scratch("rows.csv");
    let name = file.to_str().expect("Unicode");
    let output = panel(&["--windows", "123", "--rows", name, "-k", "2"]);
    assert_eq!(output.status.code(), Some(0), "{}", stderr(&output));
    let text = fs::read_to_string(&file).expect("rows");
    let lines: Vec<&str> = text.lines().collect();
    assert_eq!(lines.len(), 1 + 123);
    assert_eq!(lines[0], "end_time,local_0,local_1,running_0,running_1");
    for line in &lines[1..] {
        let numbers: Vec<f64> = line
            .split(',')
            .map(|x| x.parse().expect("a float"))
            .collect();
        assert_eq!(numbers.len(), 5);
    }
}

#[test]
fn a_refused_run_leaves_the_rows_of_its_windows() {
    let file = scratch("refused.csv");
    let name = file.to_str().expect("Unicode");
    let words = [
        "--system=linear",
        "--matrix=100",
        "--step=1",
        "--warm-up=0",
        "--rows",
        name,
    ];
    let output = panel(&words);
    assert_eq!(output.status.code(), Some(2));
    assert!(stderr(&output).contains("refused by 16 at place 0"));
    assert_eq!(
        fs::read_to_string(&file).expect("rows").lines().count(),
        1 + 4
    );
    let file = scratch("nothing.csv");
    let name = file.to_str().expect("Unicode");
    assert_unfit(&["--state", "1,1", "--rows", name], "refused by 10");
    assert!(!file.exists());
}

#[test]
fn a_drawing_has_a_line_a_direction() {
    let file = scratch("rates.svg");
    let name = file.to_str().expect("Unicode");
    let output = panel(&["--windows", "5000", "--svg", name]);
    assert_eq!(output.status.code(), Some(0), "{}", stderr(&output));
    let svg = fs::read_to_string(&file).expect("a drawing");
    assert!(svg.starts_with("<svg ") && svg.ends_with("</svg>\n"));
    assert_eq!(svg.matches("<polyline ").count(), 3);
    for direction in 0..3 {
        assert!(svg.contains(&format!("direction {direction}: ")));
    }
    assert!(svg.contains(">time<") && svg.contains(">running rate, 1 / time<"));
    assert_elements_are_closed(&svg);
}

#[test]
fn a_drawing_of_rates_that_are_not_finite() {
    let file = scratch("infinite.svg");
    let name = file.to_str().expect("Unicode");
    for (matrix, step) in [
        ("1", "5e-324"),
        ("1", "1e-300"),
        ("-1e300", "1e-300"),
        ("0", "1e300"),
    ] {
        let matrix = format!("--matrix={matrix}");
        let step = format!("--step={step}");
        let words = [
            "--system=linear",
            &matrix,
            &step,
            "--windows=9",
            "--svg",
            name,
        ];
        panel(&words);
        let svg = fs::read_to_string(&file).expect("a drawing");
        assert_eq!(svg.matches("<polyline ").count(), 1);
        assert!(!svg.contains("inf,") && !svg.contains("NaN,"), "{svg}");
        assert_elements_are_closed(&svg);
    }
}

/// The JSON of a short run with these words beside.
fn short(words: &[&str]) -> json::Value {
    let output = panel(&[&["--warm-up=20", "--json"], words].concat());
    assert_eq!(output.status.code(), Some(0), "{}", stderr(&output));
    json::read(&stdout(&output)).expect("JSON")
}

#[test]
fn continuations_end_as_longer_runs() {
    let value = short(&["--windows=30", "--then=40,1"]);
    let kept = short(&["--windows=30"]);
    let rates = |value: &json::Value| value.field("exponents").floats();
    assert_eq!(rates(&value), rates(&kept));
    let then = value.field("continuations").entries();
    assert_eq!(then.len(), 2);
    for (then, more) in then.iter().zip([40, 1]) {
        let longer = short(&["--windows", &(30 + more).to_string()]);
        assert_eq!(then.field("more_windows").float(), f64::from(more));
        for list in ["exponents", "faint_counts", "final_state"] {
            assert_eq!(then.field(list).floats(), longer.field(list).floats());
        }
        for number in ["final_time", "measured_time", "steps"] {
            assert_eq!(then.field(number).float(), longer.field(number).float());
        }
        let difference = |(then, kept): (f64, f64)| then - kept;
        let pairs = rates(then).into_iter().zip(rates(&kept));
        let moved: Vec<f64> = pairs.map(difference).collect();
        assert_eq!(then.field("moved").floats(), moved);
    }
}

#[test]
fn the_text_has_the_continuations_beside_each_other() {
    let output = panel(&["--windows=30", "--warm-up=20", "--then=40,1", "-k=2"]);
    assert_eq!(output.status.code(), Some(0), "{}", stderr(&output));
    let text = stdout(&output);
    let (run, then) = text.split_once("\nrates after so many").expect("a table");
    let lines: Vec<&str> = then.lines().collect();
    assert_eq!(lines.len(), 1 + 1 + 2, "{text}");
    let heading: Vec<&str> = lines[1].split_whitespace().collect();
    assert_eq!(heading, ["direction", "+40", "moved", "+1", "moved"]);
    for (direction, line) in lines[2..].iter().enumerate() {
        let cells: Vec<f64> = line
            .split_whitespace()
            .map(|x| x.parse().expect("a number"))
            .collect();
        assert_eq!((cells.len(), cells[0]), (5, direction as f64), "{line}");
        assert!(cells[2] != 0.0 && cells[4] != 0.0, "{line}");
    }
    let plain = panel(&["--windows=30", "--warm-up=20", "-k=2"]);
    assert_eq!(run, stdout(&plain));
}

#[test]
fn rows_and_drawing_go_on_through_the_longest_continuation() {
    let (rows, one) = (scratch("then.csv"), scratch("one.csv"));
    let drawing = scratch("then.svg");
    let name = |file: &PathBuf| file.to_str().expect("Unicode").to_string();
    let files = ["--rows", &name(&rows), "--svg", &name(&drawing)];
    short(&[&["--windows=30", "--then=2,40,1"], &files[..]].concat());
    short(&["--windows=70", "--rows", &name(&one)]);
    let text = |file| fs::read_to_string(file).expect("a file");
    assert_eq!(text(&rows), text(&one));
    let svg = text(&drawing);
    assert_eq!(svg.matches("<polyline ").count(), 3);
    for end in [">kept<", ">+2<", ">+40<", ">+1<"] {
        assert_eq!(svg.matches(end).count(), 1, "{end}");
    }
    assert_elements_are_closed(&svg);
    short(&["--windows=30", "--svg", &name(&drawing)]);
    assert!(!text(&drawing).contains(">kept<"));
}

#[test]
fn faint_windows_of_a_continuation_are_warned_of() {
    let words = [
        "--system=linear",
        "--matrix=-1",
        "--step=1.596",
        "--steps=270",
    ];
    let run = |more: &[&str]| stdout(&panel(&[&words, more].concat()));
    let run_alone = run(&["--windows=2", "--warm-up=0"]);
    assert!(run_alone.contains("in 2 of 2 windows"), "{run_alone}");
    let with_more = run(&["--windows=2", "--warm-up=0", "--then=1,3"]);
    assert!(with_more.contains("in 5 of 5 windows"), "{with_more}");
    assert_eq!(with_more.matches("WARNING").count(), 1);
}

#[test]
fn refused_continuations_are_told_with_their_option() {
    let limit =
        "refused by 5 at place 1: windows is above 16777216 (--windows and --then together)";
    let told_by = |more: &str| match more {
        "0" => "refused by 4 at place 0: there are no measured windows",
        _ => limit,
    };
    for more in ["0", "16777215", "16777217", "18446744073709551615"] {
        let words = ["--system=van-der-pol", "-k=1", "--windows=2"];
        let output = panel(&[&words[..], &["--then", &format!("1,{more}")]].concat());
        assert_eq!(output.status.code(), Some(2));
        let (text, told) = (stdout(&output), stderr(&output));
        let refused = format!("panel: --then {more}: {}", told_by(more));
        assert!(told.contains(&refused), "{told}");
        let heading = format!("+1           moved  {:>14}", format!("+{more}"));
        assert!(text.contains(&heading), "{text}");
    }
    assert_unfit(&["--then", "5,"], "--then: \"\" is no whole number");
    assert_unfit(&["--windows=0", "--then=5"], "panel: refused by 4");
    assert_unfit(&["--state=1,2", "--then=5"], "panel: refused by 10");
}

#[test]
fn a_continuation_that_is_refused_leaves_its_windows() {
    let file = scratch("refused_later.csv");
    let name = file.to_str().expect("Unicode");
    let growth = ["--system=linear", "--matrix=100", "--step=1", "--warm-up=0"];
    let then = ["--windows=2", "--then=1,9,8", "--json", "--rows", name];
    let output = panel(&[&growth[..], &then[..]].concat());
    assert_eq!(output.status.code(), Some(2));
    let told = stderr(&output);
    for more in ["9", "8"] {
        let refused = format!("panel: --then {more}: refused by 16 at place 0: ");
        assert!(told.contains(&refused), "{told}");
    }
    assert_eq!(told.matches("(finished windows: 4, steps: 46)").count(), 2);
    let value = json::read(&stdout(&output)).expect("JSON");
    let then = value.field("continuations").entries();
    assert_eq!(then[0].field("steps").float(), 30.0);
    assert_eq!(then[1].field("refused").field("number").float(), 16.0);
    let finished = then[2].field("refused").field("finished_windows").float();
    assert_eq!(finished, 4.0);
    let rows = fs::read_to_string(&file).expect("rows");
    assert_eq!(rows.lines().count(), 1 + 2 + 2);
}

/// Every element is opened and closed in turn, and no text holds a bare mark.
fn assert_elements_are_closed(svg: &str) {
    let mut open = Vec::new();
    for piece in svg.split('<').skip(1) {
        let (tag, text) = piece.split_once('>').expect("a closed tag");
        assert!(!text.contains('>') && !text.contains('&'), "{text}");
        assert_eq!(tag.matches('"').count() % 2, 0, "{tag}");
        let name = |tag: &str| tag.split([' ', '/']).next().unwrap_or("").to_string();
        if let Some(closed) = tag.strip_prefix('/') {
            assert_eq!(open.pop(), Some(name(closed)));
        } else if !tag.ends_with('/') {
            open.push(name(tag));
        }
    }
    assert!(open.is_empty(), "{open:?}");
}

#[test]
fn unfit_words() {
    assert_unfit(&["--colour", "red"], "--colour is no option");
    assert_unfit(&["lorenz"], "lorenz is no option");
    assert_unfit(&["--windows"], "--windows needs a value");
    assert_unfit(
        &["--windows", "many"],
        "--windows: \"many\" is no whole number",
    );
    assert_unfit(&["--windows", "-1"], "is no whole number");
    assert_unfit(&["--windows", "99999999999999999999"], "is no whole number");
    assert_unfit(
        &["--step", "small"],
        "--step: \"small\" is no decimal number",
    );
    assert_unfit(&["--state", "1,,2"], "--state: \"\" is no decimal number");
    assert_unfit(&["--seed", "0xg"], "--seed: \"0xg\" is no number");
    assert_unfit(&["--system", "duffing"], "duffing is no system");
    assert_unfit(&["--parameters", "1,2"], "lorenz has 3, and 2 are given");
    assert_unfit(
        &["--matrix", "1"],
        "--matrix goes with --system linear only",
    );
    assert_unfit(&["--system", "linear"], "needs a --matrix");
    assert_unfit(
        &["--system=linear", "--matrix=1", "--parameters=1"],
        "has a --matrix instead",
    );
    assert_unfit(&["spectra", "--json"], "spectra takes no option");
}

#[test]
fn unfit_words_of_a_ring() {
    let ring = |word| ["--system=lorenz96", word];
    assert_unfit(
        &ring("--matrix=1"),
        "--matrix goes with --system linear only",
    );
    assert_unfit(&ring("--parameters=8,8"), "lorenz96 has 1, and 2 are given");
    let message = "--dimension goes with --system linear or lorenz96 only";
    assert_unfit(&["--dimension=3"], message);
    assert_unfit(&["--system=van-der-pol", "--dimension=2"], message);
}

#[test]
fn refusals_are_told_with_number_and_place() {
    assert_unfit(&["-k", "0"], "refused by 1 at place 0: no exponents");
    assert_unfit(&["--step", "0"], "refused by 2 at place 0");
    assert_unfit(&["--steps", "0"], "refused by 3");
    assert_unfit(&["--windows", "0"], "refused by 4");
    assert_unfit(&["--windows", "16777217"], "refused by 5 at place 1");
    assert_unfit(
        &["--windows", "18446744073709551615"],
        "refused by 5 at place 1",
    );
    assert_unfit(
        &["--warm-up", "16777217"],
        "refused by 5 at place 2: transient_windows is above 16777216 (--warm-up)",
    );
    assert_unfit(
        &["--windows", "16777217", "--warm-up", "16777217"],
        "refused by 5 at place 1: windows is above 16777216 (--windows)",
    );
    assert_unfit(
        &["--windows", "16777217", "--steps", "16777217"],
        "refused by 5 at place 0: steps_per_window is above 16777216 (--steps)",
    );
    assert_unfit(&["--time", "inf"], "refused by 6");
    let linear = |d, matrix| ["--system", "linear", "--dimension", d, "--matrix", matrix];
    assert_unfit(&linear("0", "1"), "refused by 7");
    assert_unfit(&linear("17", "1"), "refused by 8");
    assert_unfit(&linear("18446744073709551615", "1"), "refused by 8");
    assert_unfit(&linear("2", "1,2,3"), "refused by 9");
    assert_unfit(&["--state", "1,2"], "refused by 10");
    assert_unfit(&["--state", "1,2,nan"], "refused by 11 at place 2");
    assert_unfit(&["-k", "4"], "refused by 12");
    assert_unfit(&["--step", "1e308"], "refused by 15");
    assert_unfit(&["--parameters", "nan,28,2"], "refused by 16 at place 0");
    let ring = |cells| ["--system", "lorenz96", "--dimension", cells];
    assert_unfit(&ring("0"), "refused by 7");
    assert_unfit(&ring("1"), "refused by 25 at place 0");
    assert_unfit(&ring("3"), "refused by 25 at place 0");
    assert_unfit(&ring("17"), "refused by 8");
    assert_unfit(&ring("18446744073709551615"), "refused by 8");
    for forcing in ["--parameters=nan", "--parameters=inf"] {
        let words = ["--system=lorenz96", forcing];
        assert_unfit(&words, "refused by 16 at place 0");
    }
    assert_unfit(&["--system=lorenz96", "-k", "9"], "refused by 12");
}

#[test]
fn unwritable_files() {
    let folder = env!("CARGO_TARGET_TMPDIR");
    for option in ["--rows", "--svg"] {
        let output = panel(&["--windows", "10", option, folder]);
        assert_eq!(output.status.code(), Some(2));
        assert!(stderr(&output).contains(folder), "{}", stderr(&output));
        let missing = format!("{folder}/no-such-folder/file");
        let output = panel(&["--windows", "10", option, &missing]);
        assert_eq!(output.status.code(), Some(2));
        assert!(stderr(&output).contains("no-such-folder"));
    }
}

#[test]
fn help() {
    for word in ["--help", "-h"] {
        let output = panel(&[word]);
        assert_eq!(output.status.code(), Some(0));
        assert!(stdout(&output).contains("--warm-up-steps"));
        assert!(stdout(&output).contains("--then"));
    }
}

#[test]
fn a_seed_is_read_in_both_forms() {
    let run = |seed: &str| {
        stdout(&panel(&[
            "--windows=50",
            "--warm-up=0",
            "--json",
            "--seed",
            seed,
        ]))
    };
    assert_eq!(run("255"), run("0xff"));
    assert_ne!(run("255"), run("256"));
}

#[test]
fn known_spectra() {
    let output = panel(&["spectra"]);
    let text = stdout(&output);
    assert_eq!(output.status.code(), Some(0), "{text}{}", stderr(&output));
    assert!(text.contains("warned: faint windows"));
    assert!(text.ends_with("all as known\n"));
}
