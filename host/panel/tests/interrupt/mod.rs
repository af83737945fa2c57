//! Long runs: how far they are on a terminal, and what an interrupt leaves.

use crate::circuits::name;
use crate::{assert_elements_are_closed, json, panel, scratch, stderr, stdout};
use std::fs;
use std::os::unix::process::ExitStatusExt as _;
use std::process::{Child, Command, Output, Stdio};
use std::time::{Duration, Instant};

/// Windows of about a tenth of a millisecond, for several seconds.
const LONG: [&str; 5] = [
    "--system=van-der-pol",
    "--steps=1000",
    "--windows=200000",
    "-k=1",
    "--warm-up=0",
];

/// One window, which takes as long.
const ONE_WINDOW: [&str; 6] = [
    "--system=lorenz96",
    "--dimension=16",
    "--step=1e-6",
    "--steps=16000000",
    "--windows=1",
    "--warm-up=0",
];

fn begun(words: &[&str]) -> Child {
    Command::new(env!("CARGO_BIN_EXE_panel"))
        .args(words)
        .stdout(Stdio::piped())
        .stderr(Stdio::piped())
        .spawn()
        .expect("the panel runs")
}

/// Whether the system has it that the panel handles an interrupt: bit 1 is that of signal 2.
fn handles_interrupts(panel: &Child) -> bool {
    let status = fs::read_to_string(format!("/proc/{}/status", panel.id()));
    let status = status.expect("a running process");
    let mask = status.lines().find_map(|line| line.strip_prefix("SigCgt:"));
    let mask = u64::from_str_radix(mask.expect("signals").trim(), 16);
    mask.expect("a mask") & 2 != 0
}

fn wait_until(condition: impl Fn() -> bool) {
    let limit = Instant::now() + Duration::from_secs(60);
    while !condition() {
        assert!(Instant::now() < limit, "nothing happens");
        std::thread::sleep(Duration::from_millis(5));
    }
}

fn interrupt(panel: &Child) {
    let id = panel.id().to_string();
    let status = Command::new("kill").args(["-INT", &id]).status();
    assert!(status.expect("kill").success());
}

/// What a run leaves that is interrupted after a while.
fn interrupted(words: &[&str]) -> Output {
    let panel = begun(words);
    wait_until(|| handles_interrupts(&panel));
    std::thread::sleep(Duration::from_millis(200));
    interrupt(&panel);
    panel.wait_with_output().expect("an end")
}

/// A number with its commas.
fn number(text: &str) -> usize {
    text.replace(',', "").parse().expect("a number")
}

/// The finished windows that a message tells, which are so many of `all`.
fn told_windows(text: &str, all: &str) -> usize {
    let (_, told) = text.split_once("interrupted after ").expect("an interrupt");
    let (finished, rest) = told.split_once(" of ").expect("two counts");
    assert!(rest.starts_with(all), "{text}");
    number(finished)
}

#[test]
fn an_interrupt_leaves_the_finished_windows() {
    let (rows, drawing, same) = (
        scratch("interrupted.csv"),
        scratch("interrupted.svg"),
        scratch("same.csv"),
    );
    let files = ["--rows", name(&rows), "--svg", name(&drawing), "--json"];
    let output = interrupted(&[&LONG, &files[..]].concat());
    assert_eq!(output.status.code(), Some(130), "{}", stderr(&output));
    let words = "200,000 windows: the rates are those of the finished windows\n";
    let finished = told_windows(&stderr(&output), words);
    assert!(finished > 0);
    let value = json::read(&stdout(&output)).expect("JSON");
    assert_eq!(value.field("interrupted"), &json::Value::True);
    assert_eq!(value.field("finished_windows").float(), finished as f64);

    // The run of so many windows has the same rates and rows.
    let windows = format!("--windows={finished}");
    let shorter = [&LONG[..], &[&windows, "--json", "--rows", name(&same)]].concat();
    let shorter = json::read(&stdout(&panel(&shorter))).expect("JSON");
    for field in [
        "exponents",
        "kaplan_yorke_dimension",
        "kolmogorov_sinai_entropy",
    ] {
        assert_eq!(value.field(field), shorter.field(field));
    }
    let text = |file| fs::read_to_string(file).expect("a file");
    assert_eq!(text(&rows).lines().count(), 1 + finished);
    assert_eq!(text(&rows), text(&same));
    let svg = text(&drawing);
    assert_elements_are_closed(&svg);
    told_windows(&svg, "200,000 windows<");
}

#[test]
fn an_interrupted_text_has_the_rates() {
    let output = interrupted(&LONG);
    assert_eq!(output.status.code(), Some(130));
    let (text, told) = (stdout(&output), stderr(&output));
    let last = text.lines().last().expect("a line");
    assert_eq!(told, format!("panel: {last}\n"));
    assert!(told_windows(last, "200,000 windows: the rates") > 0);
    assert!(text.contains("\ndirection "), "{text}");
    assert!(text.contains("\nKaplan-Yorke dimension "), "{text}");
    assert!(text.contains("not known\n"), "{text}");
}

#[test]
fn an_interrupt_in_the_warm_up_leaves_no_rates() {
    let rows = scratch("warm_up.csv");
    let words = ["--warm-up=200000", "--rows", name(&rows)];
    let output = interrupted(&[&LONG[..], &words].concat());
    assert_eq!(output.status.code(), Some(130));
    let words = "200,000 windows of warm-up: there are no rates yet\n";
    told_windows(&stderr(&output), words);
    told_windows(&stdout(&output), words);
    assert!(!stdout(&output).contains("direction"));
    assert!(!rows.exists());
    let json = [&LONG[..], &["--warm-up=200000", "--json"]].concat();
    let value = json::read(&stdout(&interrupted(&json))).expect("JSON");
    assert_eq!(value.field("finished_windows").float(), 0.0);
    assert_eq!(value.field("exponents").floats(), []);
    assert_eq!(value.field("kaplan_yorke_dimension"), &json::Value::Null);
}

#[test]
fn an_interrupt_stops_all_circuits_that_are_not_over() {
    let (circuits, rows) = (scratch("stopped.circuits"), scratch("stopped.csv"));
    let long = LONG.join(" ");
    let short = "--system=van-der-pol --windows=2 --warm-up=0";
    let text = format!("long {long}\nshort {short}\nbad -k 0\nlater {long} --warm-up=200000\n");
    fs::write(&circuits, text).expect("a file");
    let words = ["--circuits", name(&circuits), "--rows", name(&rows)];
    let output = interrupted(&[&words[..], &["--json"]].concat());
    assert_eq!(output.status.code(), Some(130));
    let value = json::read(&stdout(&output)).expect("JSON");
    let [long, short, bad, later] = value.field("circuits").entries() else {
        panic!("four circuits");
    };
    for circuit in [long, later] {
        assert_eq!(circuit.field("interrupted"), &json::Value::True);
    }
    assert_eq!(short.field("steps").float(), 20.0);
    assert_eq!(bad.field("refused").field("number").float(), 1.0);
    let rows = fs::read_to_string(&rows).expect("rows");
    let rows_of = |name: &str| rows.lines().filter(|row| row.starts_with(name)).count();
    let finished = long.field("finished_windows").float();
    assert_eq!(rows_of("long,") as f64, finished);
    assert_eq!([rows_of("short,"), rows_of("later,")], [2, 0]);
}

#[test]
fn rows_are_left_where_nobody_reads_the_results() {
    let rows = scratch("unread.csv");
    let mut panel = begun(&[&LONG[..], &["--rows", name(&rows)]].concat());
    drop((panel.stdout.take(), panel.stderr.take()));
    wait_until(|| handles_interrupts(&panel));
    interrupt(&panel);
    let status = panel.wait().expect("an end");
    assert_eq!(status.code(), Some(130));
    assert!(fs::read_to_string(&rows).expect("rows").lines().count() > 1);
}

#[test]
fn a_second_interrupt_ends_it_at_once() {
    let mut panel = begun(&ONE_WINDOW);
    wait_until(|| handles_interrupts(&panel));
    interrupt(&panel);
    wait_until(|| !handles_interrupts(&panel));
    assert!(panel.try_wait().expect("a status").is_none());
    interrupt(&panel);
    let status = panel.wait().expect("an end");
    assert_eq!(status.signal(), Some(2));
}

/// What the panel writes on a terminal; `None` where no terminal can be had.
fn on_terminal(words: &str) -> Option<String> {
    let command = format!("{} {words}", env!("CARGO_BIN_EXE_panel"));
    let script = Command::new("script")
        .args(["-qec", &command, "/dev/null"])
        .stdin(Stdio::null())
        .output();
    let output = script.ok()?;
    assert_eq!(output.status.code(), Some(0), "{}", stderr(&output));
    Some(stdout(&output).replace("\r\n", "\n"))
}

#[test]
fn a_terminal_shows_how_far_the_runs_are() {
    let circuits = scratch("shown.circuits");
    let text = "long --warm-up=0\nshort --windows=9 --warm-up=0\n";
    fs::write(&circuits, text).expect("a file");
    let common = "--system=van-der-pol --windows=12000 --steps=1000";
    let several = format!("{common} --circuits {}", name(&circuits));
    for (words, names) in [
        (common, &["van-der-pol"][..]),
        (&several, &["long", "short"]),
    ] {
        let Some(shown) = on_terminal(words) else {
            eprintln!("no command script: the table on a terminal is not tested");
            return;
        };
        let (_, table) = shown.split_once("rates so far\x1b[K\n").expect("a table");
        for (line, name) in table.lines().zip(names) {
            assert!(line.starts_with(name) && line.ends_with("\x1b[K"), "{line}");
        }
        // It is gone at the end: only the results stay, as they are without a terminal.
        let (_, left) = shown.rsplit_once("\x1b[J").expect("a cleared table");
        let words: Vec<&str> = words.split_whitespace().collect();
        let plain = panel(&words);
        assert_eq!(left, stdout(&plain));
        assert!(stderr(&plain).is_empty());
    }
    let shown = on_terminal(&format!("{common} --no-progress")).expect("a terminal");
    assert!(!shown.contains('\x1b'), "{shown}");
}
