//! The Rust source behind an interface in document 01's numbers.
//!
//! `build.rs` makes two substitutions, the logarithm of document 01 and sums from −0.0, and nothing
//! else. Where the source is not at hand, `source` answers `None` and the crate holds nothing of it.

pub mod logarithm;

#[cfg(source_available)]
mod files;
#[cfg(source_available)]
mod present;
#[cfg(all(test, source_available))]
mod sums;
#[cfg(source_available)]
mod systems;

// The source's files name these at the root of their crate.
#[cfg(source_available)]
use files::{ContinuousSystem, LyapunovError, Result, TangentStepper};

use input::{Refusal, Settings, System};

/// The source, where it was at hand when this crate was built.
pub fn source() -> Option<&'static dyn Source> {
    #[cfg(source_available)]
    return Some(&present::Present);
    #[cfg(not(source_available))]
    None
}

/// What a program says where there is no source.
pub const NOT_AVAILABLE: &str = "source not available";

/// What is asked of the source.
pub trait Source: Sync {
    /// A run. `estimate_spectrum` starts at time 0. `estimate_largest` does too, and takes of the
    /// settings the step size, the steps a window and the windows; the others must be those that
    /// it sets.
    fn run(&self, by: Entry, circuit: Circuit, start: Start, settings: &Settings) -> Run;

    /// The exponents of a run and nothing else of it, for timing: what is not the source's own
    /// work is left out.
    fn exponents(&self, circuit: Circuit, start: Start, settings: &Settings) -> End<Vec<f64>>;

    /// The builder of settings: its tests are 1 to 4.
    fn build_config(&self, settings: &Settings) -> End<()>;

    /// `steps` steps with one stepper, which keeps its memory between them, as a run does.
    fn steps(&self, circuit: Circuit, step: Step, steps: usize) -> End<()>;

    /// The logarithms of the lengths. The dimension must not be 0.
    fn modified_gram_schmidt(&self, tangents: &mut [f64], dimension: usize) -> End<Vec<f64>>;

    fn kaplan_yorke_dimension(&self, exponents: &[f64]) -> End<f64>;

    fn kolmogorov_sinai_entropy(&self, exponents: &[f64]) -> End<f64>;

    /// The turn of the generator from `state`.
    fn splitmix64(&self, state: u64) -> Turn;
}

/// Which function is asked for a run.
#[derive(Clone, Copy, Debug, PartialEq, Eq)]
pub enum Entry {
    SpectrumAt,
    Spectrum,
    Largest,
}

/// A system, and whether the source may evaluate it. Where a test that document 01 or 02 adds
/// fails, the source is asked for its own tests alone, and its first evaluation stops it.
#[derive(Clone, Copy, Debug)]
pub struct Circuit<'a> {
    pub system: &'a System,
    pub may_evaluate: bool,
    /// Read for a ring only.
    pub neighbours: Neighbours,
}

/// How the index of a cell's neighbour is brought back into a ring. The results are the same; the
/// times are not, so a benchmark takes both.
#[derive(Clone, Copy, Debug, Default, PartialEq, Eq)]
pub enum Neighbours {
    /// By the remainder, as document 02 writes it: `(i + 1) % n`.
    #[default]
    Remainder,
    /// By a comparison: `if i + 1 == n { 0 } else { i + 1 }`.
    Comparison,
}

/// Where a run begins.
#[derive(Clone, Copy, Debug)]
pub struct Start<'a> {
    pub time: f64,
    pub state: &'a [f64],
}

/// A step of a state and `count` directions.
#[derive(Debug)]
pub struct Step<'a> {
    pub time: f64,
    pub step_size: f64,
    pub state: &'a mut [f64],
    pub tangents: &'a mut [f64],
    pub count: usize,
}

/// How a call of the source ended.
#[derive(Clone, Debug, PartialEq)]
pub enum End<T> {
    Done(T),
    Refused(Refusal),
    /// It would have evaluated a system that it may not evaluate.
    Stopped,
}

#[derive(Clone, Debug, PartialEq)]
pub struct Spectrum {
    pub exponents: Vec<f64>,
    /// End time, local and running exponents of each measured window, one after the other.
    pub rows: Vec<f64>,
    pub final_state: Vec<f64>,
    pub final_time: f64,
    pub measured_time: f64,
}

#[derive(Clone, Debug, PartialEq)]
pub struct Run {
    pub end: End<Spectrum>,
    /// Steps that passed every test.
    pub steps: u64,
    /// Measured windows that were finished.
    pub finished: u64,
}

/// One turn of the generator.
#[derive(Clone, Copy, Debug, PartialEq)]
pub struct Turn {
    pub state: u64,
    pub output: u64,
    pub symmetric_unit: f64,
}
