//! Several runs side by side.

use crate::error::answered;
use crate::estimator::{listed, Lent};
use crate::{
    BenettinConfig, LyapunovError, RefusedRun, Result, Rk4, Row, SpectrumEstimate, System,
};
use core::fmt;
use input::{Refusal, Settings};
use lyapunov_sys::{DispatcherMemory, DISPATCHER_RUNS};
use std::collections::BTreeMap;

/// Up to eight runs side by side, which take turns of one window.
///
/// A run that is [handed in](Self::hand_in) gets a name, the least number from 0 that no other
/// unfinished run has, and goes to the back of a queue. Each [`turn`](Self::turn) makes one window,
/// warm-up or measured, of the run in front, which then goes to the back unless it is over. So among
/// any eight turns in a row every run that is unfinished throughout them has at least one. Once over,
/// a run has the answer that it has alone, whatever became of its neighbours, and its name is free.
///
/// A dispatcher is about 23 KB of memory. With each run it holds its matrix and its rows, which are
/// asked for once, on hand-in; [`rows`](Self::rows) reads them while the run is under way.
///
/// Two circuits side by side, and what they have in the middle:
///
/// ```
/// use field_lyapunov::{estimate_spectrum, BenettinConfig, Dispatcher, Rk4, System};
///
/// let lorenz = Rk4::new(System::Lorenz { sigma: 10.0, rho: 28.0, beta: 8.0 / 3.0 });
/// let circle = Rk4::new(System::VanDerPol { mu: 1.0 });
/// let settled = BenettinConfig::new(3, 0.01, 10, 50)?.with_transient_windows(5);
/// let short = BenettinConfig::new(1, 0.01, 10, 20)?;
///
/// let mut dispatcher = Dispatcher::new();
/// assert_eq!(dispatcher.next(), None);
/// assert_eq!(dispatcher.hand_in(&lorenz, 0.0, &[1.0, 1.0, 1.0], &settled)?, 0);
/// assert_eq!(dispatcher.hand_in(&circle, 0.0, &[2.0, 0.0], &short)?, 1);
///
/// // Ten turns are five of each: the warm-up of the first run, and five rows of the second.
/// for turn in 0..10 {
///     assert_eq!(dispatcher.next(), Some(turn % 2));
///     let turn = dispatcher.turn().expect("somebody is next");
///     assert!(turn.answer().is_none());
/// }
/// assert_eq!(dispatcher.windows_begun(0), Some(5));
/// assert_eq!(dispatcher.rows(0).expect("unfinished").len(), 0);
/// let latest = dispatcher.rows(1).expect("unfinished").last().expect("five rows");
/// assert_eq!(latest.running_exponents().len(), 1);
///
/// // All turns: a loop of a page would draw the rows between them.
/// let mut answers = vec![];
/// while let Some(turn) = dispatcher.turn() {
///     let name = turn.name();
///     if let Some(answer) = turn.into_answer() {
///         answers.push((name, answer?));
///     }
/// }
/// assert_eq!(answers[0], (1, estimate_spectrum(&circle, &[2.0, 0.0], &short)?));
/// assert_eq!(answers[1], (0, estimate_spectrum(&lorenz, &[1.0, 1.0, 1.0], &settled)?));
/// assert_eq!(dispatcher.unfinished().count(), 0);
/// # Ok::<(), field_lyapunov::LyapunovError>(())
/// ```
#[derive(Clone)]
pub struct Dispatcher {
    memory: DispatcherMemory,
    /// The unfinished runs, by their names.
    circuits: BTreeMap<usize, Circuit>,
}

/// What is lent with each turn of a run, and how far it is.
#[derive(Clone)]
struct Circuit {
    settings: Settings,
    matrix: Vec<f64>,
    lent: Lent,
    begun: u64,
}

impl Dispatcher {
    /// A dispatcher without runs.
    #[must_use]
    pub fn new() -> Self {
        Self {
            memory: DispatcherMemory::empty(),
            circuits: BTreeMap::new(),
        }
    }

    /// Hands in the run of [`estimate_spectrum_at`](crate::estimate_spectrum_at); answers its name.
    ///
    /// A refused run is not taken, and nothing of it is held. Where eight runs are unfinished it is
    /// refused by [`DispatcherFull`](LyapunovError::DispatcherFull), before any other test. Then come
    /// the tests that the run alone has before its first step, in their order, and
    /// [`OutputTooShort(0)`](LyapunovError::OutputTooShort) where there is no memory for its rows.
    pub fn hand_in(
        &mut self,
        stepper: &Rk4,
        initial_time: f64,
        initial_state: &[f64],
        config: &BenettinConfig,
    ) -> Result<usize> {
        if self.circuits.len() >= DISPATCHER_RUNS {
            return Err(LyapunovError::DispatcherFull);
        }
        let (system, settings) = (stepper.system(), config.settings());
        let (time, state) = (initial_time, initial_state);
        // The library tests the matrix at each turn, but one that does not fit would never do.
        answered(lyapunov_sys::validate(system, time, state, settings))?;
        let circuit = Circuit::of(system, settings).ok_or(LyapunovError::OutputTooShort(0))?;
        let (memory, mut name) = (self.memory.lent(), 0);
        let handed_in = lyapunov_sys::hand_in(memory, system, time, state, settings, &mut name);
        answered(handed_in)?;
        let name = name as usize;
        self.circuits.insert(name, circuit);
        Ok(name)
    }

    /// The name of the run whose turn is next; `None` where all are over.
    #[must_use]
    pub fn next(&self) -> Option<usize> {
        let name = lyapunov_sys::next(&self.memory.queue) as usize;
        (name < DISPATCHER_RUNS).then_some(name)
    }

    /// One window of the run that is [next](Self::next); `None` where nobody is.
    pub fn turn(&mut self) -> Option<Turn> {
        let name = self.next()?;
        let circuit = self.circuits.get_mut(&name)?;
        let (memory, matrix) = (self.memory.lent(), &circuit.matrix);
        let mut event = [0; 4];
        let refusal = circuit
            .lent
            .to(|outputs| lyapunov_sys::turn(memory, matrix, outputs, &mut event));
        let [stage, _, windows_begun, _] = event;
        circuit.begun = windows_begun;
        let over = match stage {
            OVER => self.circuits.remove(&name),
            _ => None,
        };
        Some(Turn {
            name,
            windows_begun,
            answer: over.map(|circuit| circuit.answer(refusal)),
        })
    }

    /// The rows of the measured windows that an unfinished run has finished so far, in the order of
    /// the windows; `None` where no unfinished run has this name.
    #[must_use]
    pub fn rows(
        &self,
        name: usize,
    ) -> Option<impl DoubleEndedIterator<Item = Row<'_>> + ExactSizeIterator> {
        let circuit = self.circuits.get(&name)?;
        let width = circuit.settings.row_width();
        let rows = circuit.lent.rows.chunks_exact(width);
        Some(rows.take(circuit.finished()).map(|entries| Row { entries }))
    }

    /// How many windows of an unfinished run have been begun, warm-up included: as many as it had
    /// turns.
    #[must_use]
    pub fn windows_begun(&self, name: usize) -> Option<u64> {
        Some(self.circuits.get(&name)?.begun)
    }

    /// The names of the unfinished runs, from the least on.
    pub fn unfinished(&self) -> impl Iterator<Item = usize> + '_ {
        self.circuits.keys().copied()
    }
}

/// The stage of a turn after which its run is over.
const OVER: u64 = 3;

impl Circuit {
    /// What a run needs that passed the tests; `None` where there is no memory for its rows.
    fn of(system: &System, settings: &Settings) -> Option<Self> {
        let matrix = match system {
            System::Linear { matrix, .. } => matrix.clone(),
            _ => Vec::new(),
        };
        Some(Self {
            settings: *settings,
            matrix,
            lent: Lent::fitting(settings, system.dimension())?,
            begun: 0,
        })
    }

    /// The measured windows that are finished, of an unfinished run.
    const fn finished(&self) -> usize {
        let warm_up = self.settings.transient_windows;
        self.begun.saturating_sub(warm_up) as usize
    }

    /// The answer of a run that is over.
    fn answer(self, refusal: Refusal) -> Answer {
        match listed(0..self.lent.finished(), self.settings.row_width()) {
            Some(windows) => self.lent.answer(refusal, windows),
            None => Err(LyapunovError::OutputTooShort(0).into()),
        }
    }
}

type Answer = core::result::Result<SpectrumEstimate, RefusedRun>;

/// What became of a [turn](Dispatcher::turn).
#[derive(Clone, Debug, PartialEq)]
pub struct Turn {
    name: usize,
    windows_begun: u64,
    answer: Option<Answer>,
}

impl Turn {
    /// Whose turn it was.
    #[must_use]
    pub const fn name(&self) -> usize {
        self.name
    }

    /// How many windows of this run have been begun, warm-up and this one included.
    #[must_use]
    pub const fn windows_begun(&self) -> u64 {
        self.windows_begun
    }

    /// What the run answers, once it is over: what it answers alone. `None` while it is under way.
    ///
    /// The list of its windows is made here. Where there is no memory for it, the answer is
    /// [`OutputTooShort(0)`](LyapunovError::OutputTooShort), as it is alone.
    #[must_use]
    pub const fn answer(&self) -> Option<&core::result::Result<SpectrumEstimate, RefusedRun>> {
        self.answer.as_ref()
    }

    /// The same, taken out.
    #[must_use]
    pub fn into_answer(self) -> Option<core::result::Result<SpectrumEstimate, RefusedRun>> {
        self.answer
    }
}

impl Default for Dispatcher {
    fn default() -> Self {
        Self::new()
    }
}

/// The unfinished runs, each with its begun windows.
impl fmt::Debug for Dispatcher {
    fn fmt(&self, out: &mut fmt::Formatter<'_>) -> fmt::Result {
        let runs = self.circuits.iter();
        write!(out, "Dispatcher ")?;
        out.debug_map()
            .entries(runs.map(|(name, circuit)| (name, circuit.begun)))
            .finish()
    }
}

#[cfg(test)]
mod tests;
