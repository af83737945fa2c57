//! Prepares the four files of the Rust source for the oracle.
//!
//! They are taken as they are, but for two substitutions: every float sum folds from −0.0, as
//! document 02, d) says, and the logarithm is document 01's. The library's own sum begins at −0.0
//! too, since rustc 1.95 at the latest: the files that have sums are written a second time with it,
//! and a test holds both to the same bits. How often each place occurs is asserted, so that another
//! source is noticed. Nothing of the source is kept in the repository: where it is not at hand, the
//! crate is built without it.

use std::path::{Path, PathBuf};
use std::{env, fs};

/// Where the source stands, seen from this package.
const SOURCE: &str = "../../../shared/docs/src/field-lyapunov/src";

const FOLD: &str = ".fold(-0.0_f64, |sum: f64, term: f64| sum + term)";
const LOGARITHM: &str = "crate::logarithm::document_logarithm(norm)";

/// A file, and how often each substituted place occurs in it.
struct SourceFile {
    name: &'static str,
    typed_sums: usize,
    sums: usize,
    logarithms: usize,
}

const FILES: [SourceFile; 4] = [
    SourceFile {
        name: "estimator.rs",
        typed_sums: 1,
        sums: 1,
        logarithms: 1,
    },
    SourceFile {
        name: "system.rs",
        typed_sums: 0,
        sums: 0,
        logarithms: 0,
    },
    SourceFile {
        name: "diagnostics.rs",
        typed_sums: 0,
        sums: 1,
        logarithms: 0,
    },
    SourceFile {
        name: "error.rs",
        typed_sums: 0,
        sums: 0,
        logarithms: 0,
    },
];

fn main() {
    println!("cargo:rustc-check-cfg=cfg(source_available)");
    println!("cargo:rerun-if-changed=build.rs");
    let manifest = env::var("CARGO_MANIFEST_DIR").expect("cargo sets it");
    let folder = Path::new(&manifest).join(SOURCE);
    let out = PathBuf::from(env::var("OUT_DIR").expect("cargo sets it"));
    // A path that does not exist makes cargo ask again at the next build.
    for file in &FILES {
        println!(
            "cargo:rerun-if-changed={}",
            folder.join(file.name).display()
        );
    }
    if !FILES.iter().all(|file| folder.join(file.name).is_file()) {
        return;
    }
    let own_sums = out.join("own_sums");
    fs::create_dir_all(&own_sums).expect("a writable OUT_DIR");
    for file in &FILES {
        let text = fs::read_to_string(folder.join(file.name)).expect("a readable source file");
        let text = with_logarithm(file, &text);
        fs::write(own_sums.join(file.name), &text).expect("a writable OUT_DIR");
        fs::write(out.join(file.name), with_folds(file, &text)).expect("a writable OUT_DIR");
    }
    println!("cargo:rustc-cfg=source_available");
}

fn with_logarithm(file: &SourceFile, text: &str) -> String {
    let text = replaced(file, text, "norm.ln()", LOGARITHM, file.logarithms);
    without(".ln(", file, text)
}

fn with_folds(file: &SourceFile, text: &str) -> String {
    let text = replaced(file, text, ".sum::<f64>()", FOLD, file.typed_sums);
    let text = replaced(file, &text, ".sum()", FOLD, file.sums);
    without(".sum", file, text)
}

fn without(left: &str, file: &SourceFile, text: String) -> String {
    assert!(!text.contains(left), "{}: {left} is left over", file.name);
    text
}

/// `text` with `from` replaced, after a count of its places.
fn replaced(file: &SourceFile, text: &str, from: &str, to: &str, expected: usize) -> String {
    let found = text.matches(from).count();
    assert_eq!(found, expected, "places of {from} in {}", file.name);
    text.replace(from, to)
}
