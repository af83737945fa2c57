//! What was measured: the run of each circuit, and the continuations from its end.

use crate::circuit::Circuit;
use crate::options::Options;
use crate::turns;
use field_lyapunov::{FiniteTimeEstimate, LyapunovError, RefusedRun, Row, SpectrumEstimate, Store};

pub type Answer = Result<SpectrumEstimate, Stopped>;

/// A run that did not make all its windows.
pub enum Stopped {
    Refused(RefusedRun),
    Interrupted(turns::Unfinished),
}

/// Of a run that was refused before it began.
impl From<LyapunovError> for Stopped {
    fn from(error: LyapunovError) -> Self {
        Self::Refused(error.into())
    }
}

/// A finished measured window.
#[derive(Clone, Copy)]
pub struct Window<'a> {
    pub end_time: f64,
    pub local: &'a [f64],
    pub running: &'a [f64],
}

impl<'a> From<&'a FiniteTimeEstimate> for Window<'a> {
    fn from(window: &'a FiniteTimeEstimate) -> Self {
        Self {
            end_time: window.end_time(),
            local: window.local_exponents(),
            running: window.running_exponents(),
        }
    }
}

impl<'a> From<Row<'a>> for Window<'a> {
    fn from(row: Row<'a>) -> Self {
        Self {
            end_time: row.end_time(),
            local: row.local_exponents(),
            running: row.running_exponents(),
        }
    }
}

pub struct Measured<'a> {
    pub circuit: &'a Circuit,
    pub run: Answer,
    pub continuations: Continuations,
}

/// Each with its windows; empty where the run is refused.
type Continuations = Vec<(usize, Answer)>;

/// What each circuit comes to.
pub fn measured(options: &Options) -> Vec<Measured<'_>> {
    let (circuits, around) = (&options.circuits, &options.around);
    let answers: Vec<(Answer, Continuations)> = if around.then.is_empty() {
        let answers = turns::answers(circuits, !around.no_progress);
        answers.into_iter().map(|run| (run, Vec::new())).collect()
    } else {
        circuits
            .iter()
            .map(|one| continued(one, &around.then))
            .collect()
    };
    let measured = |(circuit, (run, continuations))| Measured {
        circuit,
        run,
        continuations,
    };
    circuits.iter().zip(answers).map(measured).collect()
}

/// The run is kept under it.
const NUMBER: u8 = 0;

/// The orbit settles and is measured once; all continuations go on from there.
fn continued(circuit: &Circuit, then: &[usize]) -> (Answer, Continuations) {
    let config = match &circuit.config {
        Ok(config) => config,
        Err(error) => return (Err(Stopped::from(*error)), Vec::new()),
    };
    let (stepper, time, state) = (&circuit.stepper, circuit.time, &circuit.state);
    let mut store = Store::new();
    let run = store.keep(NUMBER, stepper, time, state, config);
    let gone_on = |more: &usize| {
        let answer = store.go_on(NUMBER, stepper, time, state, config, *more);
        (*more, answer.map_err(Stopped::Refused))
    };
    let then = then.iter().filter(|_| run.is_ok()).map(gone_on).collect();
    (run.map_err(Stopped::Refused), then)
}

fn windows(answer: &Answer) -> Box<dyn Iterator<Item = Window<'_>> + '_> {
    let ended = match answer {
        Ok(estimate) => estimate.finite_time_estimates(),
        Err(Stopped::Refused(refused)) => refused.finite_time_estimates(),
        Err(Stopped::Interrupted(run)) => return Box::new(run.windows()),
    };
    Box::new(ended.iter().map(Window::from))
}

/// How far the rates of a continuation are from those of the run.
pub fn moved(run: &SpectrumEstimate, then: &SpectrumEstimate) -> Vec<f64> {
    let rates = then.exponents().iter().zip(run.exponents());
    rates.map(|(then, run)| then - run).collect()
}

impl Measured<'_> {
    /// The finished windows of the run and of its longest continuation: each of the others is the
    /// beginning of that.
    pub fn windows(&self) -> impl Iterator<Item = Window<'_>> {
        let later = self.continuations.iter().map(|(_, answer)| answer);
        let longest = later.max_by_key(|answer| windows(answer).count());
        windows(&self.run).chain(longest.into_iter().flat_map(windows))
    }

    /// Where the run and each continuation ended, named; nothing without continuations.
    pub fn ends(&self) -> Vec<(f64, String)> {
        let kept = |run: &SpectrumEstimate| (run.final_time(), "kept".to_string());
        let run = self.run.iter().filter(|_| !self.continuations.is_empty());
        let then = self.continuations.iter().filter_map(|(more, answer)| {
            let end = answer.as_ref().ok()?.final_time();
            Some((end, format!("+{more}")))
        });
        run.map(kept).chain(then).collect()
    }

    /// The estimate of the most windows.
    pub fn longest<'a>(&'a self, run: &'a SpectrumEstimate) -> &'a SpectrumEstimate {
        let then = self.continuations.iter().flat_map(|(_, answer)| answer);
        then.chain([run])
            .max_by_key(|ended| ended.finished_windows())
            .unwrap_or(run)
    }

    pub fn interrupted(&self) -> bool {
        matches!(self.run, Err(Stopped::Interrupted(_)))
    }
}
