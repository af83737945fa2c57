//! The source, asked.

use crate::systems::{is_stop, Evaluated};
use crate::{
    files, Circuit, End, Entry, LyapunovError, Result, Run, Source, Spectrum, Start, Step,
    TangentStepper, Turn,
};
use input::{Refusal, Settings};

/// The source was built.
pub struct Present;

impl Source for Present {
    fn run(&self, by: Entry, circuit: Circuit, start: Start, settings: &Settings) -> Run {
        let mut stepper = Counted {
            rk4: files::Rk4::new(Evaluated::from(circuit)),
            passed: 0,
        };
        let estimate = estimate(by, &mut stepper, start, settings);
        let end = ended(estimate.map(|estimate| spectrum(&estimate)), Call::Run);
        let (steps, finished) = progress(&end, stepper.passed, settings);
        Run {
            end,
            steps,
            finished,
        }
    }

    fn exponents(&self, circuit: Circuit, start: Start, settings: &Settings) -> End<Vec<f64>> {
        let mut rk4 = files::Rk4::new(Evaluated::from(circuit));
        let estimate = estimate(Entry::SpectrumAt, &mut rk4, start, settings);
        let exponents = estimate.map(|estimate| estimate.exponents().to_vec());
        ended(exponents, Call::Run)
    }

    fn build_config(&self, settings: &Settings) -> End<()> {
        ended(benettin_config(settings).map(|_| ()), Call::Run)
    }

    fn steps(&self, circuit: Circuit, step: Step, steps: usize) -> End<()> {
        let mut rk4 = files::Rk4::new(Evaluated::from(circuit));
        let (state, tangents) = (step.state, step.tangents);
        let one = |_| rk4.step(step.time, state, tangents, step.count, step.step_size);
        ended((0..steps).try_for_each(one), Call::Step)
    }

    fn modified_gram_schmidt(&self, tangents: &mut [f64], dimension: usize) -> End<Vec<f64>> {
        let answer = files::probe_modified_gram_schmidt(tangents, dimension);
        ended(answer, Call::Run)
    }

    fn kaplan_yorke_dimension(&self, exponents: &[f64]) -> End<f64> {
        ended(files::kaplan_yorke_dimension(exponents), Call::Run)
    }

    fn kolmogorov_sinai_entropy(&self, exponents: &[f64]) -> End<f64> {
        ended(files::kolmogorov_sinai_entropy(exponents), Call::Run)
    }

    fn splitmix64(&self, state: u64) -> Turn {
        let (next, output) = files::probe_next_u64(state);
        Turn {
            state: next,
            output,
            symmetric_unit: files::probe_symmetric_unit(state),
        }
    }
}

/// The source's stepper, with a count of the steps that it did not refuse.
struct Counted {
    rk4: files::Rk4<Evaluated>,
    passed: u64,
}

impl TangentStepper for Counted {
    fn dimension(&self) -> usize {
        self.rk4.dimension()
    }

    fn step(
        &mut self,
        time: f64,
        state: &mut [f64],
        tangents: &mut [f64],
        tangent_count: usize,
        step_size: f64,
    ) -> Result<()> {
        let answer = self
            .rk4
            .step(time, state, tangents, tangent_count, step_size);
        self.passed += u64::from(answer.is_ok());
        answer
    }
}

/// The source's run.
fn estimate(
    by: Entry,
    stepper: &mut impl TangentStepper,
    start: Start,
    settings: &Settings,
) -> Result<files::SpectrumEstimate> {
    let (steps, windows) = (
        settings.steps_per_window as usize,
        settings.windows as usize,
    );
    if by == Entry::Largest {
        return files::estimate_largest(stepper, start.state, settings.step_size, steps, windows);
    }
    let config = benettin_config(settings)?;
    match by {
        Entry::Spectrum => files::estimate_spectrum(stepper, start.state, &config),
        _ => files::estimate_spectrum_at(stepper, start.time, start.state, &config),
    }
}

fn benettin_config(settings: &Settings) -> Result<files::BenettinConfig> {
    let (steps, windows) = (
        settings.steps_per_window as usize,
        settings.windows as usize,
    );
    let built = files::BenettinConfig::new(settings.top_k, settings.step_size, steps, windows)?;
    Ok(built
        .with_transient_windows(settings.transient_windows as usize)
        .with_seed(settings.seed))
}

fn spectrum(estimate: &files::SpectrumEstimate) -> Spectrum {
    let mut rows = Vec::new();
    for window in estimate.finite_time_estimates() {
        rows.push(window.end_time());
        rows.extend_from_slice(window.local_exponents());
        rows.extend_from_slice(window.running_exponents());
    }
    Spectrum {
        exponents: estimate.exponents().to_vec(),
        rows,
        final_state: estimate.final_state().to_vec(),
        final_time: estimate.final_time(),
        measured_time: estimate.measured_time(),
    }
}

/// The steps that passed every test and the measured windows that were finished. The stepper
/// does not see test 18, nor a collapse after the last step of a window.
fn progress(end: &End<Spectrum>, passed: u64, settings: &Settings) -> (u64, u64) {
    let number = match end {
        End::Refused(refusal) => refusal.number,
        _ => 0,
    };
    let steps = passed - u64::from(number == 18);
    let ended = steps / settings.steps_per_window.max(1);
    let orthonormalised = ended.saturating_sub(u64::from(number == 14));
    let finished = orthonormalised.saturating_sub(settings.transient_windows);
    (steps, finished)
}

/// Which call an error came from: a time that is not finite has another number in each.
#[derive(Clone, Copy)]
enum Call {
    Run,
    Step,
}

fn ended<T>(answer: Result<T>, call: Call) -> End<T> {
    match answer {
        Ok(value) => End::Done(value),
        Err(error) if is_stop(&error) => End::Stopped,
        Err(error) => End::Refused(refusal(&error, call)),
    }
}

/// The source's errors in document 01's numbers.
fn refusal(error: &LyapunovError, call: Call) -> Refusal {
    let (number, place) = match *error {
        LyapunovError::ZeroCount { field: "top_k" } => (1, 0),
        LyapunovError::ZeroCount {
            field: "steps_per_window",
        } => (3, 0),
        LyapunovError::ZeroCount { field: "windows" } => (4, 0),
        LyapunovError::ZeroCount { field: "exponents" } => (20, 0),
        LyapunovError::ZeroDimension => (7, 0),
        LyapunovError::InvalidExponentCount { .. } => (12, 0),
        LyapunovError::DegenerateTangent { vector } => (14, vector),
        LyapunovError::InvalidParameter { field, .. } => match (field, call) {
            ("step_size", _) => (2, 0),
            ("initial_time", _) | ("time", Call::Step) => (6, 0),
            ("window_duration", _) => (15, 0),
            ("time", Call::Run) => (18, 0),
            _ => unreachable!("{error}"),
        },
        LyapunovError::DimensionMismatch { context, .. } => match context {
            "initial_state" | "state" => (10, 0),
            "tangent storage" => (19, 0),
            _ => unreachable!("{error}"),
        },
        LyapunovError::NonFiniteValue { context, index } => match context {
            "initial_state" => (11, index),
            "state" => (16, index),
            "tangents" => (17, index),
            "exponents" => (22, index),
            _ => unreachable!("{error}"),
        },
        _ => unreachable!("{error}"),
    };
    Refusal {
        number,
        place: place as u64,
    }
}

#[cfg(test)]
mod tests {
    use super::*;
    use crate::Neighbours;
    use input::System;

    fn linear(dimension: usize, matrix: &[f64]) -> System {
        let matrix = matrix.to_vec();
        System::Linear { dimension, matrix }
    }

    /// The run of a system from time 0.
    fn run(system: &System, may_evaluate: bool, state: &[f64], step_size: f64) -> Run {
        let circuit = Circuit {
            system,
            may_evaluate,
            neighbours: Neighbours::default(),
        };
        let mut settings = Settings::new(1, step_size, 2, 3);
        settings.transient_windows = 1;
        let start = Start { time: 0.0, state };
        Present.run(Entry::SpectrumAt, circuit, start, &settings)
    }

    fn refused<T>(number: u64, place: u64) -> End<T> {
        End::Refused(Refusal { number, place })
    }

    #[test]
    fn marked_examples() {
        let mut state = [1.0];
        let circuit = Circuit {
            system: &linear(1, &[1.0]),
            may_evaluate: true,
            neighbours: Neighbours::default(),
        };
        let step = Step {
            time: 0.0,
            step_size: 6.0,
            state: &mut state,
            tangents: &mut [],
            count: 0,
        };
        let end = Present.steps(circuit, step, 1);
        assert_eq!((end, state), (End::Done(()), [115.0]));
        let mut tangents = [1.0, 0.0, 2.0, 0.0];
        let end = Present.modified_gram_schmidt(&mut tangents, 2);
        assert_eq!((end, tangents), (refused(14, 1), [1.0, 0.0, 0.0, 0.0]));
        let dimension = Present.kaplan_yorke_dimension(&[1.0, 0.0, -2.0]);
        assert_eq!(dimension, End::Done(2.5));
        let entropy = Present.kolmogorov_sinai_entropy(&[-1.0, 0.5, 0.25]);
        assert_eq!(entropy, End::Done(0.75));
    }

    #[test]
    fn progress_of_a_refused_run() {
        // Time passes the largest float in the sixth step, the second of the third window.
        let run = run(&linear(1, &[0.0]), true, &[1.0], 3.2e307);
        assert_eq!(run.end, refused(18, 0));
        assert_eq!((run.steps, run.finished), (5, 1));
    }

    #[test]
    fn tests_alone() {
        let (cells, forcing) = (2, 8.0);
        for system in [linear(2, &[]), System::Lorenz96 { cells, forcing }] {
            let ask = |state: &[f64]| run(&system, false, state, 1.0).end;
            assert_eq!(ask(&[1.0]), refused(10, 0));
            assert_eq!(ask(&[1.0, f64::NAN]), refused(11, 1));
            assert_eq!(ask(&[1.0, 1.0]), End::Stopped);
        }
    }
}
