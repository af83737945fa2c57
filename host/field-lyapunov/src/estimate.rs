//! What a run answers.

use crate::LyapunovError;
use core::fmt;

/// The row of a measured window, read where the run wrote it.
#[derive(Clone, Copy, Debug, PartialEq)]
pub struct Row<'a> {
    /// End time, local exponents, running exponents.
    pub(crate) entries: &'a [f64],
}

impl<'a> Row<'a> {
    const fn top_k(self) -> usize {
        self.entries.len() / 2
    }

    /// The time at the end of the window.
    #[must_use]
    pub const fn end_time(self) -> f64 {
        self.entries[0]
    }

    /// The exponents of this window alone.
    #[must_use]
    pub fn local_exponents(self) -> &'a [f64] {
        &self.entries[1..1 + self.top_k()]
    }

    /// The exponents of all measured windows up to this one.
    #[must_use]
    pub fn running_exponents(self) -> &'a [f64] {
        &self.entries[1 + self.top_k()..]
    }
}

/// The exponents of one measured window, and those up to its end.
#[derive(Clone, Debug, PartialEq)]
pub struct FiniteTimeEstimate {
    pub(crate) window: usize,
    /// The entries of a [`Row`].
    pub(crate) row: Vec<f64>,
}

impl FiniteTimeEstimate {
    fn row(&self) -> Row<'_> {
        Row { entries: &self.row }
    }

    /// Which measured window it is, from 0. After going on from a kept state the windows of the keep
    /// are counted too, so that the first of the later ones has their number.
    #[must_use]
    pub const fn window(&self) -> usize {
        self.window
    }

    /// The time at the end of the window.
    #[must_use]
    pub fn end_time(&self) -> f64 {
        self.row().end_time()
    }

    /// The exponents of this window alone.
    #[must_use]
    pub fn local_exponents(&self) -> &[f64] {
        self.row().local_exponents()
    }

    /// The exponents of all measured windows up to this one.
    #[must_use]
    pub fn running_exponents(&self) -> &[f64] {
        self.row().running_exponents()
    }
}

/// What a run answers.
///
/// After [going on](crate::Store::go_on) from a kept state it is that of the one run of all windows,
/// but for [`finite_time_estimates`](Self::finite_time_estimates), which has the later windows alone.
#[derive(Clone, Debug, PartialEq)]
pub struct SpectrumEstimate {
    pub(crate) exponents: Vec<f64>,
    pub(crate) finite_time: Vec<FiniteTimeEstimate>,
    pub(crate) finished: usize,
    pub(crate) final_state: Vec<f64>,
    pub(crate) faint_counts: Vec<u64>,
    pub(crate) steps: u64,
    pub(crate) final_time: f64,
    pub(crate) measured_time: f64,
}

impl SpectrumEstimate {
    /// The exponents, in the order of the directions; in a long run they fall.
    #[must_use]
    pub fn exponents(&self) -> &[f64] {
        &self.exponents
    }

    /// One entry for each measured window of this call: all of a run, and the later ones of a going
    /// on, whose earlier ones are in the answer of its keep. Each says
    /// [which window it is](FiniteTimeEstimate::window).
    #[must_use]
    pub fn finite_time_estimates(&self) -> &[FiniteTimeEstimate] {
        &self.finite_time
    }

    /// The number of measured windows, those before a going on included.
    #[must_use]
    pub const fn finished_windows(&self) -> usize {
        self.finished
    }

    /// The state at the end.
    #[must_use]
    pub fn final_state(&self) -> &[f64] {
        &self.final_state
    }

    /// For each direction, the number of windows, warm-up included, at whose end its squared
    /// length was below 2^-960.
    ///
    /// Where a count is not 0, the rate of that direction and those after it may be wrong although
    /// they look like rates: run again with shorter windows, which means fewer steps a window or a
    /// smaller step size.
    ///
    /// A count speaks of squares alone. Directions whose lengths come to differ by more than the 53
    /// bits of a double within one window can lose their rates although it is 0.
    #[must_use]
    pub fn faint_counts(&self) -> &[u64] {
        &self.faint_counts
    }

    /// The number of steps, warm-up included.
    #[must_use]
    pub const fn steps(&self) -> u64 {
        self.steps
    }

    /// The time at the end.
    #[must_use]
    pub const fn final_time(&self) -> f64 {
        self.final_time
    }

    /// The duration of all measured windows. It may be infinite.
    #[must_use]
    pub const fn measured_time(&self) -> f64 {
        self.measured_time
    }
}

/// A run that was refused, and what it had done until then.
///
/// `?` turns it into its [`LyapunovError`] in a function that answers one.
///
/// ```
/// use field_lyapunov::{estimate_spectrum, BenettinConfig, LyapunovError, Rk4, System};
///
/// let growth = Rk4::new(System::Linear { dimension: 1, matrix: vec![100.0] });
/// let config = BenettinConfig::new(1, 1.0, 10, 1_000)?;
/// let refused = estimate_spectrum(&growth, &[1.0], &config).unwrap_err();
/// assert_eq!(refused.error(), LyapunovError::NonFiniteState(0));
/// assert_eq!(refused.finite_time_estimates().len(), 4);
/// assert_eq!(refused.steps(), 46);
/// # Ok::<(), LyapunovError>(())
/// ```
#[derive(Clone, Debug, PartialEq)]
pub struct RefusedRun {
    pub(crate) error: LyapunovError,
    pub(crate) finite_time: Vec<FiniteTimeEstimate>,
    pub(crate) finished: usize,
    pub(crate) steps: u64,
}

impl RefusedRun {
    /// Why it was refused.
    #[must_use]
    pub const fn error(&self) -> LyapunovError {
        self.error
    }

    /// One entry for each measured window that was finished in this call. A going on that is refused
    /// in one of its windows has those of the later windows before it.
    #[must_use]
    pub fn finite_time_estimates(&self) -> &[FiniteTimeEstimate] {
        &self.finite_time
    }

    /// The number of measured windows that were finished, those before a going on included. It is 0
    /// where a test of the input refused.
    #[must_use]
    pub const fn finished_windows(&self) -> usize {
        self.finished
    }

    /// The number of steps that passed every test, warm-up included.
    #[must_use]
    pub const fn steps(&self) -> u64 {
        self.steps
    }
}

impl fmt::Display for RefusedRun {
    fn fmt(&self, out: &mut fmt::Formatter<'_>) -> fmt::Result {
        let (windows, steps) = (self.finished, self.steps);
        write!(out, "{}", self.error)?;
        write!(out, " (finished windows: {windows}, steps: {steps})")
    }
}

impl std::error::Error for RefusedRun {
    fn source(&self) -> Option<&(dyn std::error::Error + 'static)> {
        Some(&self.error)
    }
}

impl From<RefusedRun> for LyapunovError {
    fn from(refused: RefusedRun) -> Self {
        refused.error
    }
}

/// A run that was refused before it began.
impl From<LyapunovError> for RefusedRun {
    fn from(error: LyapunovError) -> Self {
        Self {
            error,
            finite_time: Vec::new(),
            finished: 0,
            steps: 0,
        }
    }
}
