//! An interrupt (Ctrl-C) as a flag, for a program that stops between two turns.
//!
//! It has nothing to do with the library. It stands here since a signal handler takes unsafe code.

use core::ffi::c_int;
use core::sync::atomic::{AtomicBool, Ordering};

/// By this number and with this argument the C standard's `signal` is the same on every system.
const SIGINT: c_int = 2;
type Handler = extern "C" fn(c_int);
/// A null pointer: the program ends, as it does where nobody handles the signal.
const SIG_DFL: Option<Handler> = None;

extern "C" {
    fn signal(number: c_int, handler: Option<Handler>) -> usize;
}

static NOTED: AtomicBool = AtomicBool::new(false);

/// Makes the first interrupt from now on be noted; the second ends the program.
pub fn note() {
    handle(Some(on_interrupt));
}

/// Whether an interrupt has been noted.
pub fn noted() -> bool {
    NOTED.load(Ordering::Relaxed)
}

extern "C" fn on_interrupt(_: c_int) {
    NOTED.store(true, Ordering::Relaxed);
    handle(SIG_DFL);
}

/// Where the system refuses it, an interrupt ends the program, as before.
fn handle(handler: Option<Handler>) {
    // SAFETY: the handler sets a flag and calls `signal`, both of which a handler may do at any
    // time. The answer, the handler before, is not used.
    unsafe { signal(SIGINT, handler) };
}
