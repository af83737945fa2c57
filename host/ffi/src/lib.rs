//! The C interface of the proved library, with safe functions over slices.
//!
//! This is the only package with unsafe code. Each call hands over slices as pointer and length,
//! and numbers as they are. The library has no `requires`: it refuses what does not fit, so
//! nothing has to be tested here. A place starts as `UNWRITTEN`, so that a caller sees whether
//! the library wrote it. A refusal with the number 0 is none.

mod arguments;
pub mod interrupt;

pub use arguments::Arguments;

use input::{Refusal, Settings};

/// The declarations of the header, by `build.rs`.
mod raw {
    include!(concat!(env!("OUT_DIR"), "/raw.rs"));
}

/// Calls a function of the C interface. Its arguments are named in the order of the header, with a
/// word before each that says how it is handed over: a `system` or its `numbers` without a matrix, the
/// `settings` of a run or some `fields` of them, a slice to `read` or to `write`, an array of the
/// header's length to be `seen` or `filled`, the `outputs` of a run or their `slices` alone, or a
/// single `value`.
macro_rules! call {
    (@ $function:ident [$($done:tt)*] system $of:ident, $($rest:tt)*) => {
        call!(@ $function [$($done)*] numbers $of, read $of.matrix, $($rest)*)
    };
    (@ $function:ident [$($done:tt)*] numbers $of:ident, $($rest:tt)*) => {
        call!(@ $function [$($done)* $of.kind, $of.parameters[0], $of.parameters[1],
            $of.parameters[2], $of.dimension,] $($rest)*)
    };
    (@ $function:ident [$($done:tt)*] settings $of:ident, $($rest:tt)*) => {
        call!(@ $function [$($done)*] fields $of [top_k, step_size, steps_per_window, windows,
            transient_windows, seed], $($rest)*)
    };
    (@ $function:ident [$($done:tt)*] fields $of:ident [$($field:ident),*], $($rest:tt)*) => {
        call!(@ $function [$($done)* $($of.$field,)*] $($rest)*)
    };
    (@ $function:ident [$($done:tt)*] read $slice:expr, $($rest:tt)*) => {
        call!(@ $function [$($done)* $slice.as_ptr(), $slice.len(),] $($rest)*)
    };
    (@ $function:ident [$($done:tt)*] write $slice:expr, $($rest:tt)*) => {
        call!(@ $function [$($done)* $slice.as_mut_ptr(), $slice.len(),] $($rest)*)
    };
    (@ $function:ident [$($done:tt)*] seen $array:expr, $($rest:tt)*) => {
        call!(@ $function [$($done)* $array.as_ptr(),] $($rest)*)
    };
    (@ $function:ident [$($done:tt)*] filled $array:expr, $($rest:tt)*) => {
        call!(@ $function [$($done)* $array.as_mut_ptr(),] $($rest)*)
    };
    (@ $function:ident [$($done:tt)*] outputs $of:ident, $($rest:tt)*) => {
        call!(@ $function [$($done)*] slices $of, filled $of.counts, filled $of.times, $($rest)*)
    };
    (@ $function:ident [$($done:tt)*] slices $of:ident, $($rest:tt)*) => {
        call!(@ $function [$($done)*] write $of.rows, write $of.exponents, write $of.final_state,
            $($rest)*)
    };
    (@ $function:ident [$($done:tt)*] value $value:expr, $($rest:tt)*) => {
        call!(@ $function [$($done)* $value,] $($rest)*)
    };
    // SAFETY: every pointer comes with the length of its slice, or is that of one number or of an
    // array of the length that the header names. No two slices that are written overlap, since
    // each is borrowed mutably.
    (@ $function:ident [$($done:tt)*]) => { unsafe { raw::$function($($done)*) } };
    ($function:ident($($argument:tt)*)) => { call!(@ $function [] $($argument)*) };
}

/// Calls the function that takes options where `settings` has some, and else the one without. The
/// arguments up to the settings, their fields, and the arguments behind them stand in brackets.
macro_rules! with_settings {
    ($without:ident or $with:ident, $settings:ident,
        [$($before:tt)*] [$($fields:tt)*] [$($behind:tt)*]) => {
        match $settings.options() {
            [] => call!($without($($before)* fields $settings [$($fields)*], $($behind)*)),
            options => call!($with(
                $($before)* fields $settings [$($fields)*], read options, $($behind)*
            )),
        }
    };
    ($without:ident or $with:ident, $settings:ident, [$($before:tt)*] [$($behind:tt)*]) => {
        with_settings!($without or $with, $settings, [$($before)*]
            [top_k, step_size, steps_per_window, windows, transient_windows, seed] [$($behind)*])
    };
}

/// What a number holds until the library writes it.
pub const UNWRITTEN: u64 = u64::MAX;

/// What a run may write.
#[derive(Debug)]
pub struct Outputs<'a> {
    pub rows: &'a mut [f64],
    pub exponents: &'a mut [f64],
    pub final_state: &'a mut [f64],
    /// Place, finished windows, steps, 16 faint counts.
    pub counts: &'a mut [u64; 19],
    /// Final time, measured time.
    pub times: &'a mut [f64; 2],
}

/// The most states that a store keeps.
pub const STORE_STATES: usize = 8;
/// The length of a store's floats.
pub const STORE_FLOATS: usize = 2568;
/// The length of a store's counts.
pub const STORE_COUNTS: usize = 152;

/// The memory of a store, where it may be written. It may hold anything: what makes no sense
/// counts as free.
#[derive(Debug)]
pub struct StoreMut<'a> {
    pub floats: &'a mut [f64; STORE_FLOATS],
    pub counts: &'a mut [u64; STORE_COUNTS],
}

/// The memory of a store that is only read.
#[derive(Clone, Copy, Debug)]
pub struct StoreRef<'a> {
    pub floats: &'a [f64; STORE_FLOATS],
    pub counts: &'a [u64; STORE_COUNTS],
}

/// A store's memory on its own, with nothing kept at first.
#[derive(Clone, Debug)]
pub struct StoreMemory {
    pub floats: Box<[f64; STORE_FLOATS]>,
    pub counts: Box<[u64; STORE_COUNTS]>,
}

impl StoreMemory {
    #[must_use]
    pub fn empty() -> Self {
        let mut counts = Box::new([0; STORE_COUNTS]);
        empty_store(&mut counts);
        let floats = Box::new([0.0; STORE_FLOATS]);
        Self { floats, counts }
    }

    pub fn lent(&mut self) -> StoreMut<'_> {
        StoreMut {
            floats: &mut self.floats,
            counts: &mut self.counts,
        }
    }

    #[must_use]
    pub fn seen(&self) -> StoreRef<'_> {
        StoreRef {
            floats: &self.floats,
            counts: &self.counts,
        }
    }
}

/// The most unfinished runs of a dispatcher, and the name of nobody.
pub const DISPATCHER_RUNS: usize = STORE_STATES;
/// The length of the array with the settings of its runs.
pub const DISPATCHER_SETTINGS: usize = 32;
/// The length of its queue.
pub const DISPATCHER_QUEUE: usize = 73;

/// The memory of a dispatcher. Its runs under way lie in arrays as those of a store. It may hold
/// anything: every call ends, and touches nothing else.
#[derive(Debug)]
pub struct DispatcherMut<'a> {
    pub runs: StoreMut<'a>,
    pub settings: &'a mut [f64; DISPATCHER_SETTINGS],
    pub queue: &'a mut [u64; DISPATCHER_QUEUE],
}

/// A dispatcher's memory on its own, with no run at first.
#[derive(Clone, Debug)]
pub struct DispatcherMemory {
    pub runs: StoreMemory,
    pub settings: Box<[f64; DISPATCHER_SETTINGS]>,
    pub queue: Box<[u64; DISPATCHER_QUEUE]>,
}

impl DispatcherMemory {
    #[must_use]
    pub fn empty() -> Self {
        let mut queue = Box::new([0; DISPATCHER_QUEUE]);
        empty_dispatcher(&mut queue);
        Self {
            runs: StoreMemory::empty(),
            settings: Box::new([0.0; DISPATCHER_SETTINGS]),
            queue,
        }
    }

    pub fn lent(&mut self) -> DispatcherMut<'_> {
        DispatcherMut {
            runs: self.runs.lent(),
            settings: &mut self.settings,
            queue: &mut self.queue,
        }
    }
}

/// The refusal of a call that answers its number and writes its place.
fn refusal(call: impl FnOnce(&mut u64) -> u64) -> Refusal {
    let mut place = UNWRITTEN;
    let number = call(&mut place);
    Refusal { number, place }
}

pub fn sqrt(x: f64) -> f64 {
    call!(lyapunov_sqrt(value x,))
}

/// The refusal's number, 0 or 24; `out` is written where it is 0.
pub fn ln(x: f64, out: &mut f64) -> u64 {
    call!(lyapunov_ln(value x, value out,))
}

/// The state after `state`.
pub fn splitmix64_next(state: u64) -> u64 {
    call!(lyapunov_splitmix64_next(value state,))
}

/// The output of a state.
pub fn splitmix64_value(state: u64) -> u64 {
    call!(lyapunov_splitmix64_value(value state,))
}

/// The draw of an output.
pub fn splitmix64_symmetric_unit(output: u64) -> f64 {
    call!(lyapunov_splitmix64_symmetric_unit(value output,))
}

pub fn modified_gram_schmidt(tangents: &mut [f64], dimension: usize, norms: &mut [f64]) -> Refusal {
    refusal(|place| {
        call!(lyapunov_modified_gram_schmidt(
            write tangents, value dimension, write norms, value place,
        ))
    })
}

pub fn step<'a>(
    system: impl Into<Arguments<'a>>,
    time: f64,
    state: &mut [f64],
    tangents: &mut [f64],
    count: usize,
    step_size: f64,
) -> Refusal {
    let system = system.into();
    refusal(|place| {
        call!(lyapunov_step(
            system system, value time, write state, write tangents, value count, value step_size,
            value place,
        ))
    })
}

/// Tests 1 to 5 of settings with no warm-up windows.
pub fn build_config(settings: &Settings) -> Refusal {
    refusal(|place| {
        call!(lyapunov_build_config(
            fields settings [top_k, step_size, steps_per_window, windows], value place,
        ))
    })
}

/// Tests 1 to 12, 25 and 29 of a run: those that do not look at its outputs.
pub fn validate<'a>(
    system: impl Into<Arguments<'a>>,
    time: f64,
    state: &[f64],
    settings: &Settings,
) -> Refusal {
    let system = system.into();
    refusal(|place| {
        with_settings!(
            lyapunov_validate or lyapunov_validate_with_options, settings,
            [system system, value time, read state,]
            [top_k, step_size, steps_per_window, windows, transient_windows] [value place,]
        )
    })
}

/// A run; answers the refusal's number, 0 for none.
pub fn estimate_spectrum_at<'a>(
    system: impl Into<Arguments<'a>>,
    time: f64,
    state: &[f64],
    settings: &Settings,
    outputs: &mut Outputs,
) -> u64 {
    let system = system.into();
    with_settings!(
        lyapunov_estimate_spectrum_at or lyapunov_estimate_spectrum_at_with_options, settings,
        [system system, value time, read state,] [outputs outputs,]
    )
}

/// A run from time 0. With options it is the run from a start time, which is 0.
pub fn estimate_spectrum<'a>(
    system: impl Into<Arguments<'a>>,
    state: &[f64],
    settings: &Settings,
    outputs: &mut Outputs,
) -> u64 {
    if !settings.options().is_empty() {
        return estimate_spectrum_at(system, 0.0, state, settings, outputs);
    }
    let system = system.into();
    call!(lyapunov_estimate_spectrum(
        system system, read state, settings settings, outputs outputs,
    ))
}

/// A run from time 0 for the largest exponent, with no warm-up windows and the default seed. The
/// other settings are not read.
pub fn estimate_largest<'a>(
    system: impl Into<Arguments<'a>>,
    state: &[f64],
    settings: &Settings,
    outputs: &mut Outputs,
) -> u64 {
    let system = system.into();
    call!(lyapunov_estimate_largest(
        system system, read state, fields settings [step_size, steps_per_window, windows],
        outputs outputs,
    ))
}

/// Makes a store that keeps nothing. Its floats may hold anything.
pub fn empty_store(counts: &mut [u64; STORE_COUNTS]) {
    call!(lyapunov_empty_store(filled counts,))
}

/// A run whose end is kept under `number` where it is not refused.
pub fn keep<'a>(
    store: StoreMut,
    number: u8,
    system: impl Into<Arguments<'a>>,
    time: f64,
    state: &[f64],
    settings: &Settings,
    outputs: &mut Outputs,
) -> u64 {
    let system = system.into();
    with_settings!(
        lyapunov_keep or lyapunov_keep_with_options, settings,
        [filled store.floats, filled store.counts, value number,
            system system, value time, read state,]
        [outputs outputs,]
    )
}

/// Goes on from what is kept under `number`, for the windows of `settings`.
pub fn go_on<'a>(
    store: StoreRef,
    number: u8,
    system: impl Into<Arguments<'a>>,
    time: f64,
    state: &[f64],
    settings: &Settings,
    outputs: &mut Outputs,
) -> u64 {
    let system = system.into();
    with_settings!(
        lyapunov_go_on or lyapunov_go_on_with_options, settings,
        [seen store.floats, seen store.counts, value number,
            system system, value time, read state,]
        [outputs outputs,]
    )
}

/// Forgets what is kept under `number`; answers 0 or 26.
pub fn forget(floats: &[f64; STORE_FLOATS], counts: &mut [u64; STORE_COUNTS], number: u8) -> u64 {
    call!(lyapunov_forget(seen floats, filled counts, value number,))
}

/// Makes a dispatcher without runs. Its other arrays may hold anything.
pub fn empty_dispatcher(queue: &mut [u64; DISPATCHER_QUEUE]) {
    call!(lyapunov_empty_dispatcher(filled queue,))
}

/// The name of the run whose turn is next; 8 is nobody.
pub fn next(queue: &[u64; DISPATCHER_QUEUE]) -> u64 {
    call!(lyapunov_next(seen queue,))
}

/// Hands in a run; `name` is 8 where it is refused. The system's matrix is not read.
pub fn hand_in<'a>(
    dispatcher: DispatcherMut,
    system: impl Into<Arguments<'a>>,
    time: f64,
    state: &[f64],
    settings: &Settings,
    name: &mut u64,
) -> Refusal {
    let system = system.into();
    refusal(|place| {
        with_settings!(
            lyapunov_hand_in or lyapunov_hand_in_with_options, settings,
            [filled dispatcher.runs.floats, filled dispatcher.runs.counts,
                filled dispatcher.settings, filled dispatcher.queue,
                numbers system, value time, read state,]
            [value name, value place,]
        )
    })
}

/// One window of the run in front; answers the refusal's number, 0 for none. `event` becomes stage,
/// name, begun windows and place; a stage is 0 nobody, 1 unfit, 2 under way, 3 over.
pub fn turn(
    dispatcher: DispatcherMut,
    matrix: &[f64],
    outputs: &mut Outputs,
    event: &mut [u64; 4],
) -> u64 {
    call!(lyapunov_turn(
        filled dispatcher.runs.floats, filled dispatcher.runs.counts,
        seen dispatcher.settings, filled dispatcher.queue,
        read matrix, slices outputs, filled event, filled outputs.counts, filled outputs.times,
    ))
}

/// `out` is written where the refusal's number is 0.
pub fn kaplan_yorke_dimension(exponents: &[f64], out: &mut f64) -> Refusal {
    refusal(|place| call!(lyapunov_kaplan_yorke_dimension(read exponents, value out, value place,)))
}

/// `out` is written where the refusal's number is 0.
pub fn kolmogorov_sinai_entropy(exponents: &[f64], out: &mut f64) -> Refusal {
    refusal(
        |place| call!(lyapunov_kolmogorov_sinai_entropy(read exponents, value out, value place,)),
    )
}
