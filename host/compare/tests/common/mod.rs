//! Comparisons as a gate runs them, and lists of calls that are replayed.

use std::path::{Path, PathBuf};
use std::process::{Command, Output};

pub fn compare(words: &[&str]) -> Output {
    Command::new(env!("CARGO_BIN_EXE_compare"))
        .args(words)
        .output()
        .expect("the program runs")
}

/// What a comparison that finds no difference prints.
pub fn agreed(words: &[&str]) -> String {
    let output = compare(words);
    let text = String::from_utf8_lossy(&output.stdout).into_owned();
    assert_eq!(output.status.code(), Some(0), "{text}");
    text
}

/// The lines of the fixed list that begin with one of these words.
pub fn fixed_list(kinds: &[&str]) -> Vec<String> {
    let list = Path::new(env!("CARGO_MANIFEST_DIR")).join("../../tests/answers.txt");
    let text = std::fs::read_to_string(list).expect("the fixed list");
    let is_call = |line: &&str| kinds.iter().any(|kind| line.starts_with(kind));
    text.lines().filter(is_call).map(str::to_string).collect()
}

/// The status of a replay of these lines.
pub fn replayed(name: &str, lines: &[String]) -> Option<i32> {
    let file = PathBuf::from(env!("CARGO_TARGET_TMPDIR")).join(name);
    std::fs::write(&file, lines.join("\n")).expect("a file that can be written");
    compare(&["cases", &file.to_string_lossy()]).status.code()
}
