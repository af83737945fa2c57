//! Several circuits side by side.

use crate::{assert_elements_are_closed, assert_unfit, json, panel, scratch, stderr, stdout};
use std::fs;
use std::path::{Path, PathBuf};

/// Circuits that end, and refusals of every sort: by the settings, on hand-in, in the warm-up and in
/// a measured window.
const CIRCUITS: [(&str, &str); 8] = [
    ("lorenz", "--windows 300 --warm-up 20"),
    (
        "ring-5",
        "--system=lorenz96 --dimension 5 -k 2 --windows 200",
    ),
    ("no-rates", "-k 0"),
    ("bad-state", "--system van-der-pol --state 1,2,3"),
    (
        "blows.up",
        "--system linear --matrix 100 --step 1 --warm-up 0",
    ),
    (
        "blows_up_early",
        "--system linear --matrix 100 --step 1 --warm-up 9",
    ),
    (
        "decays",
        "--system=linear --matrix=-1,0,0,-2 --windows 100 --warm-up 0 --time 3",
    ),
    ("rossler", "--system rossler --seed 0xff --windows 150"),
];

/// Eight that end, at first all beside each other.
const ENDING: [(&str, &str); 8] = [
    ("a", "--windows 300 --warm-up 20"),
    ("b", "--windows 300 --warm-up 20 --seed 1"),
    ("c", "--system van-der-pol --windows 7 --warm-up 0"),
    ("d", "--system rossler --windows 500 --time -3"),
    ("e", "--system lorenz96 --dimension 16 --windows 30"),
    ("f", "--system lorenz96 --dimension 4 -k 1 --step 0.001"),
    ("g", "--system linear --matrix 0,1,-1,0 --windows 99"),
    ("h", "--system linear --matrix=-1 --steps 1 --windows 99"),
];

/// A file with these circuits, with lines between them that are passed over.
fn file(name: &str, circuits: &[(&str, &str)]) -> PathBuf {
    let mut text = String::from("# name  options\r\n\n");
    for (name, words) in circuits {
        text += &format!("  {name}\t{words}  \n   \n   # --windows\n");
    }
    written(name, &text)
}

fn written(name: &str, text: &str) -> PathBuf {
    let file = scratch(name);
    fs::write(&file, text).expect("a file of circuits");
    file
}

pub fn name(file: &Path) -> &str {
    file.to_str().expect("Unicode")
}

/// What a run of these words alone prints on standard output.
fn alone(words: &str, more: &[&str]) -> String {
    let words: Vec<&str> = words.split_whitespace().collect();
    stdout(&panel(&[&words, more].concat()))
}

#[test]
fn circuits_are_the_runs_of_their_options() {
    for (several, status) in [(&ENDING[..2], 0), (&ENDING, 0), (&CIRCUITS, 2)] {
        let file = file("runs.circuits", several);
        let output = panel(&["--circuits", name(&file), "--json"]);
        assert_eq!(output.status.code(), Some(status), "{}", stderr(&output));
        let value = json::read(&stdout(&output)).expect("JSON");
        let circuits = value.field("circuits").entries();
        assert_eq!(circuits.len(), several.len());
        for (circuit, (name, words)) in circuits.iter().zip(several) {
            let ((field, named), rest) = circuit.fields().split_first().expect("fields");
            assert_eq!((field.as_str(), named.text()), ("name", *name));
            let alone = json::read(&alone(words, &["--json"])).expect("JSON");
            assert_eq!(rest, alone.fields(), "{name}");
        }
    }
}

#[test]
fn the_text_has_a_section_a_circuit() {
    let output = panel(&["--circuits", name(&file("text.circuits", &CIRCUITS))]);
    assert_eq!(output.status.code(), Some(2));
    let (text, told) = (stdout(&output), stderr(&output));
    let sections = text.split("\ncircuit ").map(|text| text.trim_end());
    for (section, (name, words)) in sections.clone().zip(CIRCUITS) {
        let (heading, section) = section.split_once('\n').expect("a heading");
        assert_eq!(heading.trim_start_matches("circuit "), name);
        match alone(words, &[]).trim_end() {
            // Alone, a refusal is told on standard error only.
            "" => assert!(told.contains(&refusal(section, name)), "{told}"),
            alone => assert_eq!(section, alone),
        }
    }
    assert_eq!(sections.count(), CIRCUITS.len());
    assert_eq!(told.lines().count(), 4, "{told}");
}

/// The line of standard error with the refusal that ends a section.
fn refusal(section: &str, name: &str) -> String {
    let last = section.lines().last().expect("a line");
    assert!(last.starts_with("refused by "), "{section}");
    format!("panel: {name}: {last}\n")
}

#[test]
fn rows_of_several_circuits_have_their_names() {
    let rows = scratch("several.csv");
    let circuits = file("rows.circuits", &CIRCUITS);
    panel(&["--circuits", name(&circuits), "--rows", name(&rows)]);
    let text = fs::read_to_string(&rows).expect("rows");
    let mut lines = text.lines();
    let header = "circuit,end_time,local_0,local_1,local_2,running_0,running_1,running_2";
    assert_eq!(lines.next(), Some(header));
    for (circuit, words) in CIRCUITS {
        let rows = scratch("alone.csv");
        alone(words, &["--rows", name(&rows)]);
        let text = fs::read_to_string(&rows).unwrap_or_default();
        for row in text.lines().skip(1) {
            let line = lines.next().expect("a row");
            let (named, line) = line.split_once(',').expect("a name");
            assert_eq!(named, circuit);
            let filled: Vec<&str> = line.split(',').filter(|cell| !cell.is_empty()).collect();
            assert_eq!(filled.join(","), row, "{circuit}");
            assert_eq!(line.split(',').count(), 7);
        }
    }
    assert_eq!(lines.next(), None);
}

#[test]
fn one_drawing_has_a_cell_a_circuit() {
    let drawing = scratch("several.svg");
    let circuits = file("drawing.circuits", &CIRCUITS);
    panel(&["--circuits", name(&circuits), "--svg", name(&drawing)]);
    let svg = fs::read_to_string(&drawing).expect("a drawing");
    assert_elements_are_closed(&svg);
    let (head, cells) = svg.split_once("<svg x=").expect("cells");
    assert!(head.contains("viewBox=\"0 0 1380 1640\""), "{head}");
    let cells: Vec<&str> = cells.split("<svg x=").collect();
    assert_eq!(cells.len(), 8);
    let lines = [3, 2, 0, 0, 1, 0, 2, 3];
    for ((cell, (name, _)), lines) in cells.iter().zip(CIRCUITS).zip(lines) {
        assert!(cell.contains(&format!(">{name}<")), "{cell}");
        assert_eq!(cell.matches("<polyline ").count(), lines, "{name}");
        assert_eq!(cell.matches(">direction ").count(), lines, "{name}");
        // The line of the rate 0.
        let zero = cell.matches("stroke=\"#777777\"").count();
        assert_eq!(zero, usize::from(lines > 0), "{name}");
        let empty = cell.contains(">no measured window was finished<");
        assert_eq!(empty, lines == 0, "{name}");
    }
    let refused = cells.iter().filter(|cell| cell.contains(">refused by "));
    assert_eq!(refused.count(), 4);
}

#[test]
fn files_are_not_written_where_no_circuit_has_a_window() {
    let circuits = file("refused.circuits", &CIRCUITS[2..4]);
    let (rows, drawing) = (scratch("none.csv"), scratch("none.svg"));
    let files = ["--rows", name(&rows), "--svg", name(&drawing)];
    let output = panel(&[&["--circuits", name(&circuits)], &files[..]].concat());
    assert_eq!(output.status.code(), Some(2));
    assert!(!rows.exists() && !drawing.exists());
}

#[test]
fn options_on_the_command_line_hold_for_all_circuits() {
    let circuits = [("a", "--windows=30"), ("b", "--system=rossler"), ("c", "")];
    let file = file("common.circuits", &circuits);
    let common = ["--windows=20", "--system=van-der-pol", "--warm-up=0"];
    let words = ["--json", "--no-progress", "--circuits", name(&file)];
    let value = json::read(&stdout(&panel(&[&common[..], &words].concat())));
    let value = value.expect("JSON");
    let circuits = value.field("circuits").entries();
    let systems = ["van-der-pol", "rossler", "van-der-pol"];
    for ((circuit, windows), system) in circuits.iter().zip([30.0, 20.0, 20.0]).zip(systems) {
        assert_eq!(circuit.field("windows").float(), windows);
        assert_eq!(circuit.field("system").text(), system);
        assert_eq!(circuit.field("transient_windows").float(), 0.0);
    }
}

/// Whether a file of this text is refused with this message, which names the file.
fn assert_refused(file: &str, text: &str, message: &str) {
    let file = written(file, text);
    let message = message.replace("FILE", name(&file));
    assert_unfit(&["--circuits", name(&file), "--json"], &message);
}

#[test]
fn unfit_files() {
    let nine: String = (1..10).map(|at| format!("c{at} --windows 10\n")).collect();
    let message = "FILE, line 9: c9 is one too many: at most 8 circuits run side by side";
    assert_refused("unfit.circuits", &nine, message);
    for nothing in ["", "\n \n", "# a --windows 10\n"] {
        let message = "panel: FILE: there is no circuit in it";
        assert_refused("unfit.circuits", nothing, message);
    }
    assert_unfit(&["--circuits", "no-such-file"], "no-such-file: ");
    let file = written("then.circuits", "a --windows 10");
    assert_unfit(
        &["--circuits", name(&file), "--then", "5"],
        "--then goes with one run only",
    );
}

#[test]
fn unfit_lines() {
    let elsewhere = "a line has options of the system and the run, except --then";
    for (line, message) in [
        ("a -k 1", "the name a is there twice"),
        ("--windows 10", "a line begins with a name, and --windows"),
        ("a\"b -k 1", "the name a\"b is not of at most 24 letters"),
        (
            "a123456789012345678901234 -k 1",
            "the name a123456789012345678901234 is not of at most 24 letters",
        ),
        ("b --colour red", "--colour is no option"),
        ("b -k", "-k needs a value"),
        ("b --step small", "--step: \"small\" is no decimal number"),
        ("b --system linear", "a linear system needs a --matrix"),
        ("b --state 1, 1, 1", "--state: \"\" is no decimal number"),
        ("b --then 5", elsewhere),
        ("b --rows r", elsewhere),
        ("b --svg s", elsewhere),
        ("b --json", elsewhere),
        ("b --no-progress", elsewhere),
        ("b --circuits c", elsewhere),
    ] {
        let text = format!("# circuits\na --windows 10\n\n{line}\nz\n");
        let message = format!("FILE, line 4: {message}");
        assert_refused("unfit_line.circuits", &text, &message);
    }
}
