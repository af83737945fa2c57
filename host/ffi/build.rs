//! Builds and links the static library: `rt lib`, run in the folder of crate lyapunov.
//! Where the variable LYAPUNOV_ARCHIVE names an archive, that one is linked instead. The
//! declarations of its functions are those of the header.

use std::path::{Path, PathBuf};
use std::process::Command;
use std::{env, fs};

const ARCHIVE: &str = "LYAPUNOV_ARCHIVE";

fn main() {
    println!("cargo:rerun-if-changed=build.rs");
    println!("cargo:rerun-if-env-changed={ARCHIVE}");
    let manifest = env::var_os("CARGO_MANIFEST_DIR").expect("cargo sets it");
    let root = Path::new(&manifest).join("../..");
    let archive = match env::var_os(ARCHIVE) {
        Some(path) => given_archive(PathBuf::from(path)),
        None => built_archive(&root),
    };
    // A copy has the name that the linker looks for, whatever the archive is called, and it is
    // still there when the crate's out/ is removed.
    let out = PathBuf::from(env::var_os("OUT_DIR").expect("cargo sets it"));
    fs::copy(&archive, out.join("liblyapunov.a"))
        .unwrap_or_else(|error| panic!("{}: {error}", archive.display()));
    println!("cargo:rustc-link-search=native={}", out.display());
    println!("cargo:rustc-link-lib=static=lyapunov");
    let header = root.join("include/lyapunov.h");
    println!("cargo:rerun-if-changed={}", header.display());
    let header = fs::read_to_string(header).expect("the header");
    fs::write(out.join("raw.rs"), declarations(&header)).expect("a writable OUT_DIR");
}

fn given_archive(path: PathBuf) -> PathBuf {
    println!("cargo:rerun-if-changed={}", path.display());
    path
}

fn built_archive(root: &Path) -> PathBuf {
    println!(
        "cargo:rerun-if-changed={}",
        root.join("crates.txt").display()
    );
    // Not a crate's out/, which each build writes.
    for entry in fs::read_dir(root.join("crates")).expect("the crates") {
        let folder = entry.expect("a crate's folder").path();
        for part in ["src", "specs", "proofs"] {
            // To a path that is not there Cargo would answer with a new build each time.
            if folder.join(part).exists() {
                println!("cargo:rerun-if-changed={}", folder.join(part).display());
            }
        }
    }
    let folder = root.join("crates/lyapunov");
    let output = Command::new("rt")
        .arg("lib")
        .current_dir(&folder)
        .output()
        .expect("rt, the toolchain's command, on the search path");
    if !output.status.success() {
        // Cargo shows what a failed build script writes.
        eprintln!("{}", String::from_utf8_lossy(&output.stdout));
        eprintln!("{}", String::from_utf8_lossy(&output.stderr));
        panic!("rt lib: {}", output.status);
    }
    folder.join("out/liblyapunov.a")
}

/// The types that an exported function answers.
const RESULTS: [&str; 3] = ["uint64_t", "double", "void"];

/// Whether `line` begins the declaration of a function that answers a `result`.
fn starts(line: &str, result: &str) -> bool {
    let rest = line.strip_prefix(result);
    rest.is_some_and(|rest| rest.starts_with(" lyapunov_"))
}

/// The header's exported functions in Rust. Their declarations begin a line, which those of its
/// inline functions do not.
fn declarations(header: &str) -> String {
    let mut text = String::from("extern \"C\" {\n");
    for (at, _) in header.match_indices('\n') {
        let line = &header[at + 1..];
        if RESULTS.iter().any(|result| starts(line, result)) {
            let (declared, _) = line.split_once(';').expect("the end of a declaration");
            text.push_str(&declaration(declared));
        }
    }
    text.push_str("}\n");
    text
}

fn declaration(text: &str) -> String {
    let (head, arguments) = text.split_once('(').expect("arguments");
    let arguments = arguments.trim_end().trim_end_matches(')');
    let (result, name) = typed(head);
    let argument = |text: &str| {
        let (kind, name) = typed(text);
        format!("{name}: {kind}")
    };
    let arguments: Vec<String> = arguments.split(',').map(argument).collect();
    let arguments = arguments.join(", ");
    format!("    pub fn {name}({arguments}) -> {result};\n")
}

/// The type, in Rust, and the name of what is declared.
fn typed(text: &str) -> (&'static str, String) {
    let spaced = text.replace('*', " * ");
    let words: Vec<&str> = spaced.split_whitespace().collect();
    let (name, kind) = words.split_last().expect("a type and a name");
    let kind = match kind.join(" ").as_str() {
        "void" => "()",
        "double" => "f64",
        "uint8_t" => "u8",
        "uint64_t" => "u64",
        "size_t" => "usize",
        "double *" => "*mut f64",
        "const double *" => "*const f64",
        "uint64_t *" => "*mut u64",
        "const uint64_t *" => "*const u64",
        other => panic!("no type of Rust for {other} of {name}"),
    };
    (kind, name.to_string())
}
