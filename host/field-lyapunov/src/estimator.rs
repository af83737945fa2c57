//! Runs.

use crate::error::answered;
use crate::{memory, BenettinConfig, FiniteTimeEstimate, LyapunovError, Rk4, MAX_DIMENSION};
use crate::{RefusedRun, SpectrumEstimate};
use core::ops::Range;
use input::{Refusal, Settings};
use lyapunov_sys::Outputs;

/// A run from time 0.
///
/// ```
/// use field_lyapunov::{estimate_spectrum, BenettinConfig, Rk4, System};
///
/// let decay = Rk4::new(System::Linear { dimension: 2, matrix: vec![-1.0, 0.0, 0.0, -2.0] });
/// let config = BenettinConfig::new(2, 0.01, 10, 500)?.with_transient_windows(200);
/// let estimate = estimate_spectrum(&decay, &[1.0, 1.0], &config)?;
/// assert!((estimate.exponents()[0] + 1.0).abs() < 1e-6);
/// assert!((estimate.exponents()[1] + 2.0).abs() < 1e-6);
/// # Ok::<(), field_lyapunov::LyapunovError>(())
/// ```
pub fn estimate_spectrum(
    stepper: &Rk4,
    initial_state: &[f64],
    config: &BenettinConfig,
) -> Result<SpectrumEstimate, RefusedRun> {
    let (system, settings) = (stepper.system(), config.settings());
    run(settings, initial_state.len(), 0, |outputs| {
        lyapunov_sys::estimate_spectrum(system, initial_state, settings, outputs)
    })
}

/// A run for the largest exponent alone, from time 0, with no warm-up and the default seed.
///
/// ```
/// use field_lyapunov::{estimate_largest, Rk4, System};
///
/// let growth = Rk4::new(System::Linear { dimension: 1, matrix: vec![0.5] });
/// let estimate = estimate_largest(&growth, &[1.0], 0.01, 10, 100)?;
/// assert!((estimate.exponents()[0] - 0.5).abs() < 1e-9);
/// # Ok::<(), field_lyapunov::RefusedRun>(())
/// ```
pub fn estimate_largest(
    stepper: &Rk4,
    initial_state: &[f64],
    step_size: f64,
    steps_per_window: usize,
    windows: usize,
) -> Result<SpectrumEstimate, RefusedRun> {
    let settings = Settings::new(1, step_size, steps_per_window as u64, windows as u64);
    let system = stepper.system();
    run(&settings, initial_state.len(), 0, |outputs| {
        lyapunov_sys::estimate_largest(system, initial_state, &settings, outputs)
    })
}

/// A run from a start time.
///
/// All tests of the input are made before memory is asked for, and all memory is asked for before
/// the first step. Where it can't be had, the run is refused by
/// [`OutputTooShort(0)`](LyapunovError::OutputTooShort). The rows and the windows of the answer
/// take 48 + 32·`top_k` bytes a window, and the allocator's own.
///
/// ```
/// use field_lyapunov::{estimate_spectrum_at, BenettinConfig, Rk4, System};
///
/// let circle = Rk4::new(System::VanDerPol { mu: 1.0 });
/// let config = BenettinConfig::new(1, 0.5, 2, 4)?;
/// let estimate = estimate_spectrum_at(&circle, 10.0, &[2.0, 0.0], &config)?;
/// let ends: Vec<f64> = estimate.finite_time_estimates().iter().map(|w| w.end_time()).collect();
/// assert_eq!(ends, [11.0, 12.0, 13.0, 14.0]);
/// # Ok::<(), field_lyapunov::LyapunovError>(())
/// ```
pub fn estimate_spectrum_at(
    stepper: &Rk4,
    initial_time: f64,
    initial_state: &[f64],
    config: &BenettinConfig,
) -> Result<SpectrumEstimate, RefusedRun> {
    let (system, settings) = (stepper.system(), config.settings());
    run(settings, initial_state.len(), 0, |outputs| {
        lyapunov_sys::estimate_spectrum_at(system, initial_time, initial_state, settings, outputs)
    })
}

/// The run that `call` makes, from a state of `dimension` entries and after `earlier` measured
/// windows.
///
/// The first call lends no outputs: the library makes all tests of the input then, and refuses by 13
/// what passes them. So memory is asked for only where the run can be made.
pub(crate) fn run(
    settings: &Settings,
    dimension: usize,
    earlier: usize,
    mut call: impl FnMut(&mut Outputs) -> u64,
) -> Result<SpectrumEstimate, RefusedRun> {
    let tested = Lent::default().to(&mut call);
    if tested != Refusal::at(13, 0) {
        answered(tested)?;
    }
    let windows = earlier..earlier + settings.windows as usize;
    let room = Lent::fitting(settings, dimension)
        .and_then(|lent| Some((lent, listed(windows, settings.row_width())?)));
    let Some((mut lent, windows)) = room else {
        return Err(LyapunovError::OutputTooShort(0).into());
    };
    let refusal = lent.to(&mut call);
    lent.answer(refusal, windows)
}

/// What is lent to a run.
#[derive(Clone, Default)]
pub(crate) struct Lent {
    pub(crate) rows: Vec<f64>,
    exponents: Vec<f64>,
    final_state: Vec<f64>,
    counts: [u64; 3 + MAX_DIMENSION],
    times: [f64; 2],
}

impl Lent {
    /// As much as a run needs that passed the library's tests; `None` where there is no memory for
    /// its rows.
    pub(crate) fn fitting(settings: &Settings, dimension: usize) -> Option<Self> {
        Some(Self {
            rows: memory::floats(settings.rows_length())?,
            exponents: vec![0.0; settings.top_k],
            final_state: vec![0.0; dimension],
            ..Self::default()
        })
    }

    /// What the run that `call` makes is refused by.
    pub(crate) fn to(&mut self, call: impl FnOnce(&mut Outputs) -> u64) -> Refusal {
        let number = call(&mut Outputs {
            rows: &mut self.rows,
            exponents: &mut self.exponents,
            final_state: &mut self.final_state,
            counts: &mut self.counts,
            times: &mut self.times,
        });
        Refusal::at(number, self.counts[0])
    }

    /// The number of measured windows that were finished.
    pub(crate) const fn finished(&self) -> usize {
        self.counts[1] as usize
    }

    /// The answer of a run that is over. Its rows go to the `windows`, which may be too many.
    pub(crate) fn answer(
        self,
        refusal: Refusal,
        windows: Vec<FiniteTimeEstimate>,
    ) -> Result<SpectrumEstimate, RefusedRun> {
        let (finished, steps) = (self.finished(), self.counts[2]);
        let finite_time = filled(windows, &self.rows, finished);
        match answered(refusal) {
            Err(error) => Err(RefusedRun {
                error,
                finite_time,
                finished,
                steps,
            }),
            Ok(()) => Ok(SpectrumEstimate {
                faint_counts: self.counts[3..3 + self.exponents.len()].to_vec(),
                exponents: self.exponents,
                finite_time,
                finished,
                final_state: self.final_state,
                steps,
                final_time: self.times[0],
                measured_time: self.times[1],
            }),
        }
    }
}

/// Memory for these windows, whose rows have so many entries.
pub(crate) fn listed(windows: Range<usize>, width: usize) -> Option<Vec<FiniteTimeEstimate>> {
    let mut list = memory::list(windows.len())?;
    for window in windows {
        let row = memory::floats(width)?;
        list.push(FiniteTimeEstimate { window, row });
    }
    Some(list)
}

/// The windows that are among the first `finished` ones, with their rows.
fn filled(
    mut windows: Vec<FiniteTimeEstimate>,
    rows: &[f64],
    finished: usize,
) -> Vec<FiniteTimeEstimate> {
    windows.retain(|entry| entry.window < finished);
    let mut rows = rows;
    for window in &mut windows {
        let (row, rest) = rows.split_at(window.row.len());
        window.row.copy_from_slice(row);
        rows = rest;
    }
    windows
}
