//! The settings of a run.

use crate::error::answered;
use crate::Result;
use input::Settings;

/// The settings of a run.
///
/// ```
/// use field_lyapunov::{BenettinConfig, LyapunovError};
///
/// let config = BenettinConfig::new(3, 0.01, 10, 1_000)?.with_transient_windows(50).with_seed(7);
/// assert_eq!((config.top_k(), config.transient_windows(), config.seed()), (3, 50, 7));
/// assert_eq!(config.steps_per_transient_window(), 10);
/// let slowly_settling = config.with_steps_per_transient_window(1_000);
/// assert_eq!(slowly_settling.steps_per_transient_window(), 1_000);
/// assert_eq!(BenettinConfig::new(3, -0.0, 10, 1_000), Err(LyapunovError::InvalidStepSize));
/// # Ok::<(), LyapunovError>(())
/// ```
#[derive(Clone, Debug, PartialEq)]
pub struct BenettinConfig {
    settings: Settings,
}

impl BenettinConfig {
    /// Settings for `top_k` exponents, with no warm-up windows, as many steps in one as in a measured
    /// window, and the default seed. The directions are orthonormalised after every
    /// `steps_per_window` steps, which make a window.
    pub fn new(
        top_k: usize,
        step_size: f64,
        steps_per_window: usize,
        windows: usize,
    ) -> Result<Self> {
        let settings = Settings::new(top_k, step_size, steps_per_window as u64, windows as u64);
        answered(lyapunov_sys::build_config(&settings))?;
        Ok(Self { settings })
    }

    /// Sets the number of warm-up windows, which are not measured. The run tests it.
    #[must_use]
    pub const fn with_transient_windows(mut self, windows: usize) -> Self {
        self.settings.transient_windows = windows as u64;
        self
    }

    /// Sets the number of steps in each warm-up window. The run tests it, also where there are no
    /// warm-up windows. Left out, or equal to `steps_per_window`, it is the same setting.
    ///
    /// A circuit that settles slowly may be settled in few long windows and measured in many short
    /// ones. Rates and measured time are of the measured windows alone. Faint counts cover both sorts:
    /// where one is not 0, a warm-up window may be the one that is too long.
    #[must_use]
    pub const fn with_steps_per_transient_window(mut self, steps: usize) -> Self {
        let steps = steps as u64;
        self.settings.steps_per_transient_window = if steps == self.settings.steps_per_window {
            None
        } else {
            Some(steps)
        };
        self
    }

    /// Sets the seed of the directions at the start.
    #[must_use]
    pub const fn with_seed(mut self, seed: u64) -> Self {
        self.settings.seed = seed;
        self
    }

    /// How many exponents are estimated.
    #[must_use]
    pub const fn top_k(&self) -> usize {
        self.settings.top_k
    }

    /// The size of a step.
    #[must_use]
    pub const fn step_size(&self) -> f64 {
        self.settings.step_size
    }

    /// The number of steps in each measured window.
    #[must_use]
    pub const fn steps_per_window(&self) -> usize {
        self.settings.steps_per_window as usize
    }

    /// The number of measured windows.
    #[must_use]
    pub const fn windows(&self) -> usize {
        self.settings.windows as usize
    }

    /// The number of warm-up windows.
    #[must_use]
    pub const fn transient_windows(&self) -> usize {
        self.settings.transient_windows as usize
    }

    /// The number of steps in each warm-up window.
    #[must_use]
    pub const fn steps_per_transient_window(&self) -> usize {
        self.settings.transient_steps() as usize
    }

    /// The seed of the directions at the start.
    #[must_use]
    pub const fn seed(&self) -> u64 {
        self.settings.seed
    }

    pub(crate) const fn settings(&self) -> &Settings {
        &self.settings
    }
}

#[cfg(test)]
mod tests;
