//! States kept under a number.

use crate::error::answered;
use crate::estimator::run;
use crate::{BenettinConfig, RefusedRun, Result, Rk4, SpectrumEstimate};
use core::fmt;
use input::Refusal;
use lyapunov_sys::StoreMemory;
use std::collections::BTreeMap;

/// Up to eight ends of runs, each kept under a number from 0 to 255, to go on from.
///
/// A kept state is what the last [`keep`](Self::keep) under its number left that was not refused. It
/// stays until that number is kept again or [forgotten](Self::forget), however often a run
/// [goes on](Self::go_on) from it. A store is about 22 KB of memory, which it asks for once.
///
/// One orbit is settled once, and three continuations start from it:
///
/// ```
/// use field_lyapunov::{estimate_spectrum, BenettinConfig, Rk4, Store, System};
///
/// let lorenz = Rk4::new(System::Lorenz { sigma: 10.0, rho: 28.0, beta: 8.0 / 3.0 });
/// let start = [1.0, 1.0, 1.0];
/// let config = BenettinConfig::new(3, 0.01, 10, 50)?.with_transient_windows(100);
///
/// let mut store = Store::new();
/// let settled = store.keep(7, &lorenz, 0.0, &start, &config)?;
/// assert_eq!(settled, estimate_spectrum(&lorenz, &start, &config)?);
///
/// for later_windows in [1, 20, 200] {
///     let later = store.go_on(7, &lorenz, 0.0, &start, &config, later_windows)?;
///     // The rows are those of the later windows, the rest is that of one run of all windows.
///     assert_eq!(later.finite_time_estimates().len(), later_windows);
///     assert_eq!(later.finite_time_estimates()[0].window(), 50);
///     assert_eq!(later.finished_windows(), 50 + later_windows);
///     let all = BenettinConfig::new(3, 0.01, 10, 50 + later_windows)?.with_transient_windows(100);
///     let one_run = estimate_spectrum(&lorenz, &start, &all)?;
///     assert_eq!(later.exponents(), one_run.exponents());
///     assert_eq!(later.finite_time_estimates(), &one_run.finite_time_estimates()[50..]);
/// }
/// # Ok::<(), field_lyapunov::LyapunovError>(())
/// ```
///
/// A number that is used is replaced, and a forgotten one makes room for another:
///
/// ```
/// use field_lyapunov::{BenettinConfig, LyapunovError, Rk4, Store, System};
///
/// let circle = Rk4::new(System::VanDerPol { mu: 1.0 });
/// let (start, config) = ([2.0, 0.0], BenettinConfig::new(1, 0.01, 10, 5)?);
/// let mut store = Store::new();
/// for number in 0..8 {
///     store.keep(number, &circle, 0.0, &start, &config)?;
/// }
/// let refused = store.keep(200, &circle, 0.0, &start, &config).unwrap_err();
/// assert_eq!(refused.error(), LyapunovError::StoreFull);
///
/// let longer = BenettinConfig::new(1, 0.01, 10, 9)?;
/// store.keep(3, &circle, 0.0, &start, &longer)?;
/// assert_eq!(store.windows(3), Some(9));
///
/// store.forget(0)?;
/// let refused = store.go_on(0, &circle, 0.0, &start, &config, 1).unwrap_err();
/// assert_eq!(refused.error(), LyapunovError::NoSuchNumber);
/// store.keep(200, &circle, 0.0, &start, &config)?;
/// assert_eq!(store.numbers().collect::<Vec<_>>(), [1, 2, 3, 4, 5, 6, 7, 200]);
/// # Ok::<(), LyapunovError>(())
/// ```
#[derive(Clone)]
pub struct Store {
    memory: StoreMemory,
    /// The measured windows of each kept state, by its number: what the library does not tell.
    windows: BTreeMap<u8, usize>,
}

impl Store {
    /// A store that keeps nothing.
    #[must_use]
    pub fn new() -> Self {
        Self {
            memory: StoreMemory::empty(),
            windows: BTreeMap::new(),
        }
    }

    /// The run of [`estimate_spectrum_at`](crate::estimate_spectrum_at), whose end is kept under
    /// `number` in place of what was kept there.
    ///
    /// A refused run keeps and replaces nothing. Where eight other numbers are kept it is refused by
    /// [`StoreFull`](crate::LyapunovError::StoreFull), before any other test.
    pub fn keep(
        &mut self,
        number: u8,
        stepper: &Rk4,
        initial_time: f64,
        initial_state: &[f64],
        config: &BenettinConfig,
    ) -> core::result::Result<SpectrumEstimate, RefusedRun> {
        let (system, settings) = (stepper.system(), config.settings());
        let kept = run(settings, initial_state.len(), 0, |outputs| {
            let (store, time, state) = (self.memory.lent(), initial_time, initial_state);
            lyapunov_sys::keep(store, number, system, time, state, settings, outputs)
        })?;
        self.windows.insert(number, config.windows());
        Ok(kept)
    }

    /// Goes on from what is kept under `number` for so many `later_windows`, and leaves it as it is.
    ///
    /// Stepper, start and settings must be those of the keep. The windows of `config` are not read.
    /// Where anything else differs, some answer comes, and it means nothing.
    ///
    /// The answer is that of one run of the kept windows and the later ones:
    /// [`exponents`](SpectrumEstimate::exponents), counts, times and the final state, or the refusal,
    /// are those of all windows. Only
    /// [`finite_time_estimates`](SpectrumEstimate::finite_time_estimates) has the later windows alone.
    ///
    /// A number that is not kept is refused by
    /// [`NoSuchNumber`](crate::LyapunovError::NoSuchNumber), before any other test. Then
    /// [`ZeroWindows`](crate::LyapunovError::ZeroWindows) tests the later windows, and
    /// [`CountAboveLimit(1)`](crate::LyapunovError::CountAboveLimit) all of them.
    pub fn go_on(
        &self,
        number: u8,
        stepper: &Rk4,
        initial_time: f64,
        initial_state: &[f64],
        config: &BenettinConfig,
        later_windows: usize,
    ) -> core::result::Result<SpectrumEstimate, RefusedRun> {
        let system = stepper.system();
        let mut settings = *config.settings();
        settings.windows = later_windows as u64;
        let earlier = self.windows(number).unwrap_or(0);
        run(&settings, initial_state.len(), earlier, |outputs| {
            let (store, time, state) = (self.memory.seen(), initial_time, initial_state);
            lyapunov_sys::go_on(store, number, system, time, state, &settings, outputs)
        })
    }

    /// Forgets what is kept under `number`. Where nothing is, the answer is
    /// [`NoSuchNumber`](crate::LyapunovError::NoSuchNumber).
    pub fn forget(&mut self, number: u8) -> Result<()> {
        let memory = &mut self.memory;
        let refusal = lyapunov_sys::forget(&memory.floats, &mut memory.counts, number);
        answered(Refusal::of(refusal))?;
        self.windows.remove(&number);
        Ok(())
    }

    /// The number of measured windows after which the state under `number` was kept; `None` where
    /// nothing is kept.
    #[must_use]
    pub fn windows(&self, number: u8) -> Option<usize> {
        self.windows.get(&number).copied()
    }

    /// The numbers under which something is kept, from the least on.
    pub fn numbers(&self) -> impl Iterator<Item = u8> + '_ {
        self.windows.keys().copied()
    }
}

impl Default for Store {
    fn default() -> Self {
        Self::new()
    }
}

/// The numbers that are kept, each with its windows.
impl fmt::Debug for Store {
    fn fmt(&self, out: &mut fmt::Formatter<'_>) -> fmt::Result {
        write!(out, "Store ")?;
        out.debug_map().entries(&self.windows).finish()
    }
}

#[cfg(test)]
mod tests;
