//! The settings of a run.

use crate::DEFAULT_SEED;

/// The settings of a run. They may be any numbers: the call that uses them tests them.
#[derive(Clone, Copy, Debug, PartialEq)]
pub struct Settings {
    /// How many exponents are estimated.
    pub top_k: usize,
    /// The size of a step.
    pub step_size: f64,
    /// The number of steps in each window.
    pub steps_per_window: u64,
    /// The number of measured windows.
    pub windows: u64,
    /// The number of warm-up windows.
    pub transient_windows: u64,
    /// The number of steps in each warm-up window. Left out it is that of a measured one.
    pub steps_per_transient_window: Option<u64>,
    /// The seed of the directions at the start.
    pub seed: u64,
}

impl Settings {
    /// Settings with no warm-up windows, as many steps in one as in a measured window, and the default
    /// seed.
    #[must_use]
    pub const fn new(top_k: usize, step_size: f64, steps_per_window: u64, windows: u64) -> Self {
        Self {
            top_k,
            step_size,
            steps_per_window,
            windows,
            transient_windows: 0,
            steps_per_transient_window: None,
            seed: DEFAULT_SEED,
        }
    }

    /// The number of steps in each warm-up window, given or not.
    #[must_use]
    pub const fn transient_steps(&self) -> u64 {
        match self.steps_per_transient_window {
            Some(steps) => steps,
            None => self.steps_per_window,
        }
    }

    /// The options that are given, as the C interface takes them.
    #[must_use]
    pub const fn options(&self) -> &[u64] {
        self.steps_per_transient_window.as_slice()
    }

    /// The number of floats in a row: end time, local exponents, running exponents.
    #[must_use]
    pub const fn row_width(&self) -> usize {
        self.top_k.saturating_mul(2).saturating_add(1)
    }

    /// The number of floats in all rows.
    #[must_use]
    pub const fn rows_length(&self) -> usize {
        self.row_width().saturating_mul(self.windows as usize)
    }
}
