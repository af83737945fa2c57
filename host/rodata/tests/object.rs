//! Objects of a root and a logarithm in C, sound and with one fault each: a table, a second copy
//! of a constant, and more. They need the C compiler, as the project's other tests do.

use rodata::elf::Object;
use rodata::object::{brought, FUNCTIONS, MOST_BYTES};
use std::fs;
use std::path::Path;
use std::process::Command;

/// A root and a logarithm that hold the nine constants, one of them as a whole number. They
/// compute nothing of sense.
const SOUND: &str = r#"
typedef unsigned long long u64;
static double bits(u64 pattern) { double x; __builtin_memcpy(&x, &pattern, 8); return x; }
double lyapunov_sqrt(double x) { return x * 3.0; }
u64 lyapunov_ln(double x, double *out)
{
    double y = bits(0x3fe62e42fee00000u) + x * bits(0x3dea39ef35793c76u);
    y = bits(0x3fe5555555555593u) + x * (bits(0x3fd999999997fa04u) + x * y);
    y = bits(0x3fd2492494229359u) + x * (bits(0x3fcc71c51d8e78afu) + x * y);
    y = bits(0x3fc7466496cb03deu) + x * (bits(0x3fc39a09d078c69fu) + x * y);
    *out = y;
    return 0x3fc2f112df3e5244u;
}
"#;

/// What is wrong with the object that this C is compiled to.
fn faults(name: &str, code: &str) -> Result<Vec<String>, String> {
    let folder = Path::new(env!("CARGO_TARGET_TMPDIR"));
    let (source, object) = (
        folder.join(format!("{name}.c")),
        folder.join(format!("{name}.o")),
    );
    fs::write(&source, code).expect("a writable folder");
    let compiler = std::env::var("CC").unwrap_or("cc".to_string());
    let compiled = Command::new(compiler)
        .args(["-std=gnu11", "-O2", "-fno-pic", "-ffunction-sections"])
        .args(["-fdata-sections", "-fno-asynchronous-unwind-tables", "-c"])
        .arg(source)
        .arg("-o")
        .arg(&object)
        .status();
    assert!(compiled.expect("a C compiler").success());
    let object = Object::read(&fs::read(object).expect("an object"))?;
    Ok(brought(&object, &FUNCTIONS)?.faults())
}

/// The sound code with `new` in place of `old`.
fn planted(name: &str, old: &str, new: &str) -> Result<Vec<String>, String> {
    assert_eq!(SOUND.matches(old).count(), 1, "{old}");
    faults(name, &SOUND.replace(old, new))
}

#[test]
fn without_a_fault() {
    assert_eq!(faults("sound", SOUND), Ok(vec![]));
    // Other functions, and their data, are not brought along.
    let other = "double other(int i) { static const double t[99] = {1, 2}; return t[i]; }";
    assert_eq!(faults("other", &format!("{SOUND}{other}")), Ok(vec![]));
    // A constant that both functions take is one entry.
    let shared = "return x * bits(0x3fe5555555555593u);";
    assert_eq!(planted("shared", "return x * 3.0;", shared), Ok(vec![]));
}

#[test]
fn a_table() {
    let small = "static const double t[2] = {5, 6}; return t[(int)x % 2];";
    let faults = planted("small", "return x * 3.0;", small).expect("an object");
    assert_eq!(faults.len(), 1, "{faults:?}");
    assert!(faults[0].starts_with("a table: .rodata.t"), "{faults:?}");
    let large = "static const double t[9] = {5, 6, 7, 8, 9}; return t[(int)x % 9];";
    let faults = planted("large", "return x * 3.0;", large).expect("an object");
    let bytes = format!("{} bytes of data, above {MOST_BYTES}", 8 * (8 + 9));
    assert!(faults[0].starts_with("a table: .rodata.t"), "{faults:?}");
    assert_eq!(faults[1..], [bytes]);
}

/// The compiler makes a table of it.
#[test]
fn a_choice() {
    let choice = "switch ((int)x) { case 0: return 5.5; case 1: return 7.25; case 2: return 1.5;
        case 3: return 8.5; case 4: return 0.125; case 5: return 9.75; case 6: return 6.5;
        case 7: return 2.25; case 8: return 3.5; case 9: return 4.25; } return x * 3.0;";
    let faults = planted("choice", "return x * 3.0;", choice).expect("an object");
    assert!(faults[0].starts_with("a table: .rodata"), "{faults:?}");
}

#[test]
fn a_table_in_another_function() {
    let called = "__attribute__((noinline)) static double entry(int i)
        { static const u64 t[40] = {3, 5}; return t[i]; }
        double lyapunov_sqrt(double x) { return entry((int)x); }";
    let old = "double lyapunov_sqrt(double x) { return x * 3.0; }";
    let faults = planted("called", old, called).expect("an object");
    assert!(faults[0].starts_with("a table: .rodata.t"), "{faults:?}");
}

#[test]
fn a_second_copy_and_none() {
    let l1 = "__asm__ volatile(\"movabs $0x3fe5555555555593, %%rax\" ::: \"rax\"); *out = y;";
    let twice = Ok(vec!["L1 stands 2 times in what is linked".to_string()]);
    assert_eq!(planted("copy", "*out = y;", l1), twice);
    let other = planted("none", "0x3fd2492494229359u", "0x3fd2492494229358u");
    let none = Ok(vec!["L3 stands 0 times in what is linked".to_string()]);
    assert_eq!(other, none);
}

#[test]
fn data_and_code_that_are_not_the_objects_own() {
    let told = |message: &str| Err(message.to_string());
    let outside = "extern double log(double); return log(x);";
    let undefined = planted("outside", "return x * 3.0;", outside);
    assert_eq!(undefined, told("log is not in the object"));
    let kept = "static double last; last += x; return last;";
    let written = planted("written", "return x * 3.0;", kept);
    assert!(written.is_err_and(|message| message.ends_with(" is not read-only")));
    let renamed = planted("renamed", "lyapunov_sqrt", "square_root");
    assert_eq!(renamed, told("the object has no lyapunov_sqrt"));
}

/// No table, and none of the nine twice, but floats beside them.
#[test]
fn too_many_floats() {
    let sum = (0..9).fold("x".to_string(), |sum, i| format!("({sum} + {i}.3) / x"));
    let faults = planted("floats", "x * 3.0", &sum);
    let bytes = 8 * (8 + 9);
    let told = format!("{bytes} bytes of data, above {MOST_BYTES}");
    assert_eq!(faults, Ok(vec![told]));
}
