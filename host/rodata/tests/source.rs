//! Copies of constants, arrays and lost edits, planted one at a time in a copy of the code: each
//! has to be noticed, and nothing else.

use model::LOGARITHM_CONSTANTS;
use rodata::constants::NAMES;
use rodata::{edits, source};
use std::fs;
use std::path::{Path, PathBuf};
use std::process::{Command, Output};

fn project() -> PathBuf {
    Path::new(env!("CARGO_MANIFEST_DIR")).join("../..")
}

fn copy(from: &Path, to: &Path) {
    if from.is_file() {
        fs::copy(from, to).expect("a copy");
        return;
    }
    fs::create_dir_all(to).expect("a folder");
    for entry in fs::read_dir(from).expect("a folder") {
        let entry = entry.expect("an entry");
        copy(&entry.path(), &to.join(entry.file_name()));
    }
}

/// A copy of the code, in a folder of this test's own.
struct Copy {
    root: PathBuf,
}

impl Copy {
    fn new(test: &str) -> Copy {
        let root = Path::new(env!("CARGO_TARGET_TMPDIR")).join(test);
        let _ = fs::remove_dir_all(&root);
        fs::create_dir_all(&root).expect("a folder");
        copy(&project().join("crates.txt"), &root.join("crates.txt"));
        for part in [
            "sqrt/src",
            "ln/src",
            "floats/src",
            "error/src",
            "ln/must-fail",
        ] {
            let part = Path::new("crates").join(part);
            copy(&project().join(&part), &root.join(&part));
        }
        let copied = Copy { root };
        assert_eq!(copied.faults(), [""; 0]);
        copied
    }

    fn faults(&self) -> Vec<String> {
        source::read(&self.root).expect("readable code").faults
    }

    /// The faults with `changed` in place of a file's text; the file is then as it was.
    fn faults_with(&self, file: &str, changed: impl Fn(&str) -> String) -> Vec<String> {
        let file = self.root.join(file);
        let text = fs::read_to_string(&file).expect("a text");
        let with = changed(&text);
        assert_ne!(text, with, "nothing is planted");
        fs::write(&file, with).expect("a writable file");
        let faults = self.faults();
        fs::write(&file, text).expect("a writable file");
        faults
    }

    /// Plants `code` behind each crate's own, and tells what is noticed in each.
    fn planted(&self, code: &str) -> Vec<Vec<String>> {
        let crates = ["sqrt", "ln", "floats", "error"];
        let files = crates.map(|name| format!("crates/{name}/src/lib.rt"));
        let plant = |file: &String| self.faults_with(file, |text| format!("{text}{code}\n"));
        files.iter().map(plant).collect()
    }

    fn rodata(&self) -> Output {
        Command::new(env!("CARGO_BIN_EXE_rodata"))
            .arg("source")
            .arg(&self.root)
            .output()
            .expect("the program runs")
    }
}

/// The constant as a whole number in every base, as bits between underscores, and as a float.
fn spellings(constant: u64) -> Vec<String> {
    let high = constant >> 32;
    let low = constant % (1 << 32);
    let float = f64::from_bits(constant);
    vec![
        format!("{constant:#x}"),
        format!("0x{constant:X}"),
        format!("0x{high:08X}_{low:08x}_u64"),
        format!("{constant}"),
        format!("{constant}u64"),
        format!(
            "{}_{:018}",
            constant / 10_u64.pow(18),
            constant % 10_u64.pow(18)
        ),
        format!("{constant:#o}"),
        format!("{constant:#b}"),
        format!("{float:?}"),
        format!("{float:.40}"),
        format!("{float:.17e}"),
        format!("{float:.16E}_f64"),
        format!("-{float}"),
    ]
}

#[test]
fn second_copies_in_every_spelling() {
    let copied = Copy::new("copies");
    let mut noticed = 0;
    for (constant, name) in LOGARITHM_CONSTANTS.iter().zip(NAMES) {
        for spelling in spellings(*constant) {
            for code in [
                format!("const PLANTED: u64 = {spelling};"),
                format!("fn planted() {{ let x = f({spelling}); }}"),
            ] {
                for faults in copied.planted(&code) {
                    assert_eq!(faults.len(), 1, "{code}: {faults:?}");
                    let told = format!("{name} stands more than once: crates/");
                    assert!(faults[0].starts_with(&told), "{code}: {faults:?}");
                    let literal = spelling.trim_start_matches('-');
                    assert!(faults[0].contains(&format!(" as {literal}")), "{faults:?}");
                    noticed += 1;
                }
            }
        }
    }
    assert_eq!(noticed, 9 * 13 * 2 * 4);
}

#[test]
fn a_copy_in_a_comment_is_no_code_and_a_constant_there_stands_nowhere() {
    let copied = Copy::new("comments");
    for constant in LOGARITHM_CONSTANTS {
        for comment in [
            format!("// {constant:#x}"),
            format!("/* {constant} /* */ [1.0] */"),
        ] {
            assert_eq!(copied.planted(&comment), [[""; 0]; 4], "{comment}");
        }
    }
    for (constant, name) in LOGARITHM_CONSTANTS.iter().zip(NAMES) {
        for other in [
            format!("0 /* {constant:#x} */"),
            format!("{:#x}", constant ^ 1),
        ] {
            let faults = copied.faults_with("crates/ln/src/lib.rt", |text| {
                text.replace(&format!("{constant:#x}"), &other)
            });
            assert_eq!(faults, [format!("{name} stands nowhere")], "{other}");
        }
    }
}

#[test]
fn arrays_of_every_sort() {
    let copied = Copy::new("arrays");
    for array in [
        "const TABLE: [f64; 2] = [0.25, 0.75];",
        "pub const TABLE: [u64; 2] = [0x3fd0000000000000, 0x3fe8000000000000];",
        "const TABLE: [u8; 4] = *b\"\\x3f\\xd0\\x00\\x00\";",
        "const TABLE: Table = Table { of: [0.25, 0.75] };",
        "fn planted(i: usize) -> f64 { let t = [0.25, 0.75]; t[i] }",
        "fn planted(i: usize) -> f64 { let t = [0.25; 9]; t[i] }",
        "fn planted(i: usize) -> u64 { let t = [0x3fd0000000000000, A]; t[i] }",
        "fn planted(i: usize) -> f64 { [0.25, 0.75][i] }",
        "fn planted(i: usize) -> f64 { pick(&[0.25, 0.75], i) }",
        "fn planted(a: f64) -> f64 { pick(&mut [a], 0) }",
        "fn planted() -> u8 { let t = b\"table\"; t[0] }",
    ] {
        for faults in copied.planted(array) {
            assert!(!faults.is_empty(), "NOT NOTICED: {array}");
            for fault in faults {
                assert!(fault.contains(" array"), "{array}: {fault}");
            }
        }
    }
}

#[test]
fn every_file_and_every_crate_below_is_read() {
    let copied = Copy::new("files");
    let table = "pub const TABLE: [f64; 1] = [0.25];\n";
    for file in [
        "ln/src/tables.rt",
        "sqrt/src/deep/down/tables.rt",
        "tables/src/lib.rt",
    ] {
        let file = copied.root.join("crates").join(file);
        fs::create_dir_all(file.parent().expect("a folder")).expect("a folder");
        fs::write(file, table).expect("a writable file");
    }
    let told = |place: &str| [0; 2].map(|_| format!("crates/{place}/tables.rt:1: an array"));
    let found = [told("sqrt/src/deep/down"), told("ln/src")].concat();
    assert_eq!(copied.faults(), found);
    let below = copied.faults_with("crates.txt", |text| {
        text.replace("\nfloats:", "\nfloats: tables") + "tables:\n"
    });
    assert_eq!(below.len(), 6, "{below:?}");
    assert_eq!(below[4], "crates/tables/src/lib.rt:1: an array");
}

/// What `missing` says with a file of the edits changed or, for `None`, removed.
fn missing_with(file: &str, changed: Option<(&str, &str)>) -> Vec<&'static str> {
    let copied = Copy::new(&format!("edits_{file}"));
    assert_eq!(edits::missing(&copied.root), Ok(vec![]));
    let file = copied.root.join("crates/ln/must-fail").join(file);
    let text = fs::read_to_string(&file).expect("a text");
    match changed {
        None => fs::remove_file(&file).expect("removed"),
        Some((old, new)) => fs::write(&file, text.replace(old, new)).expect("written"),
    }
    edits::missing(&copied.root).expect("readable edits")
}

#[test]
fn an_edit_for_the_last_digit_of_each() {
    for name in NAMES {
        let file = format!("last_digit_{}.edit", name.to_lowercase());
        assert_eq!(missing_with(&file, None), [name]);
    }
    let first_digit = Some(("new: f64::from_bits(0x3", "new: f64::from_bits(0x2"));
    assert_eq!(missing_with("last_digit_l3.edit", first_digit), ["L3"]);
    let of_the_definition = Some(("src/lib.rt", "specs/Logarithm.antt"));
    assert_eq!(
        missing_with("last_digit_hi.edit", of_the_definition),
        ["hi"]
    );
}

#[test]
fn exit_status() {
    let copied = Copy::new("status");
    let status = |output: &Output| output.status.code();
    let sound = copied.rodata();
    assert_eq!(status(&sound), Some(0), "{sound:?}");
    fs::write(copied.root.join("crates/ln/src/table.rt"), "[0.25]").expect("written");
    let faulty = copied.rodata();
    assert_eq!(status(&faulty), Some(1));
    let told = String::from_utf8_lossy(&faulty.stdout);
    assert!(
        told.contains("crates/ln/src/table.rt:1: an array"),
        "{told}"
    );
    fs::remove_dir_all(copied.root.join("crates/floats")).expect("removed");
    assert_eq!(status(&copied.rodata()), Some(2));
    fs::create_dir_all(copied.root.join("crates/floats/src")).expect("a folder");
    assert_eq!(status(&copied.rodata()), Some(2));
}
