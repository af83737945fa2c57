//! What a dispatcher answers, and when it stays as it is.

use super::*;
use crate::{estimate_spectrum_at, MAX_COUNT};

const TIME: f64 = 0.5;

/// A run as it is handed in.
struct Handed {
    stepper: Rk4,
    state: Vec<f64>,
    config: BenettinConfig,
}

fn handed(system: System, state: &[f64], windows: usize) -> Handed {
    let config = BenettinConfig::new(state.len(), 0.01, 3, windows).unwrap();
    Handed {
        stepper: Rk4::new(system),
        state: state.to_vec(),
        config: config.with_transient_windows(1).with_seed(7),
    }
}

impl Handed {
    fn to(&self, dispatcher: &mut Dispatcher) -> Result<usize> {
        dispatcher.hand_in(&self.stepper, TIME, &self.state, &self.config)
    }

    fn alone(&self) -> Answer {
        estimate_spectrum_at(&self.stepper, TIME, &self.state, &self.config)
    }
}

fn lorenz(windows: usize) -> Handed {
    let (sigma, rho, beta) = (10.0, 28.0, 2.5);
    let system = System::Lorenz { sigma, rho, beta };
    handed(system, &[1.0; 3], windows)
}

fn linear(matrix: &[f64], state: &[f64], windows: usize) -> Handed {
    let (dimension, matrix) = (state.len(), matrix.to_vec());
    handed(System::Linear { dimension, matrix }, state, windows)
}

fn ring(windows: usize) -> Handed {
    let (cells, forcing) = (16, 8.0);
    let state: Vec<f64> = (0..cells).map(|cell| cell as f64 / 4.0).collect();
    handed(System::Lorenz96 { cells, forcing }, &state, windows)
}

/// Each step multiplies the state by about 4e18: it overflows in the sixth window.
fn overflowing(windows: usize) -> Handed {
    linear(&[1e7], &[1.0], windows)
}

/// Its direction collapses in its first window, which is one of warm-up.
fn collapsing() -> Handed {
    let mut run = linear(&[-1.0], &[0.0], 3);
    run.config = BenettinConfig::new(1, 1.0, 2_000, 3).unwrap();
    run.config = run.config.with_transient_windows(1);
    run
}

/// All of a dispatcher's memory, floats by their bits.
fn content(dispatcher: &Dispatcher) -> Vec<u64> {
    let DispatcherMemory {
        runs,
        settings,
        queue,
    } = &dispatcher.memory;
    let floats = runs.floats.iter().chain(settings.iter());
    let bits = floats.map(|x| x.to_bits());
    let counts = runs.counts.iter().chain(queue.iter());
    bits.chain(counts.copied()).collect()
}

fn unfinished(dispatcher: &Dispatcher) -> Vec<usize> {
    dispatcher.unfinished().collect()
}

#[test]
fn every_run_answers_as_alone() {
    let runs = [
        lorenz(4),
        collapsing(),
        linear(&[0.5, 1.0, -1.0, 0.25], &[1.0, -2.0], 9),
        overflowing(9),
        ring(2),
        handed(System::VanDerPol { mu: 1.0 }, &[2.0, 0.0], 1),
    ];
    let mut dispatcher = Dispatcher::new();
    for (name, run) in runs.iter().enumerate() {
        assert_eq!(run.to(&mut dispatcher), Ok(name));
    }
    let (mut answers, mut spent) = (BTreeMap::new(), [0; 6]);
    while let Some(next) = dispatcher.next() {
        let turn = dispatcher.turn().unwrap();
        assert_eq!(turn.name(), next);
        spent[next] += 1;
        assert_eq!(turn.windows_begun(), spent[next]);
        assert_eq!(
            dispatcher.windows_begun(next).is_none(),
            turn.answer().is_some()
        );
        if let Some(answer) = turn.into_answer() {
            answers.insert(next, answer);
        }
    }
    assert_eq!(spent, [5, 1, 10, 6, 3, 2]);
    for (name, run) in runs.iter().enumerate() {
        assert_eq!(answers[&name], run.alone(), "{name}");
    }
    let refused = |name| answers[&name].as_ref().unwrap_err();
    assert_eq!(refused(1).error(), LyapunovError::DegenerateTangent(0));
    assert_eq!(refused(3).error(), LyapunovError::NonFiniteState(0));
    assert_eq!(refused(3).finite_time_estimates().len(), 4);
}

/// The rows so far are those of the answer, and stand in one place from hand-in on.
#[test]
fn rows_are_read_while_a_run_is_under_way() {
    let run = lorenz(3);
    let alone = run.alone().unwrap();
    let mut dispatcher = Dispatcher::new();
    run.to(&mut dispatcher).unwrap();
    let place = |dispatcher: &Dispatcher| dispatcher.circuits[&0].lent.rows.as_ptr();
    let at_first = place(&dispatcher);
    for finished in [0, 1, 2] {
        assert_eq!(dispatcher.turn().unwrap().answer(), None);
        assert_eq!(place(&dispatcher), at_first);
        let rows = dispatcher.rows(0).unwrap();
        assert_eq!(rows.len(), finished);
        for (row, window) in rows.zip(alone.finite_time_estimates()) {
            assert_eq!(row.end_time(), window.end_time());
            assert_eq!(row.local_exponents(), window.local_exponents());
            assert_eq!(row.running_exponents(), window.running_exponents());
        }
    }
    assert_eq!(dispatcher.turn().unwrap().into_answer(), Some(Ok(alone)));
    assert!(dispatcher.rows(0).is_none());
    assert_eq!(dispatcher.windows_begun(0), None);
}

#[test]
fn a_ninth_run() {
    let mut dispatcher = Dispatcher::new();
    for name in 0..8 {
        assert_eq!(lorenz(2).to(&mut dispatcher), Ok(name));
    }
    let before = content(&dispatcher);
    // No state would be refused by 10, and the other by 9.
    let mut failing = lorenz(2);
    failing.state.clear();
    for ninth in [lorenz(1), failing, linear(&[], &[1.0], 1)] {
        let refused = ninth.to(&mut dispatcher).unwrap_err();
        assert_eq!(refused, LyapunovError::DispatcherFull);
        assert_eq!((refused.number(), refused.place()), (28, 0));
    }
    assert_eq!(content(&dispatcher), before);
    assert_eq!(unfinished(&dispatcher), [0, 1, 2, 3, 4, 5, 6, 7]);
}

#[test]
fn a_refused_run_is_not_taken() {
    let mut dispatcher = Dispatcher::new();
    lorenz(2).to(&mut dispatcher).unwrap();
    dispatcher.turn();
    let before = content(&dispatcher);
    let mut refused = |run: Handed| {
        let error = run.to(&mut dispatcher).unwrap_err();
        assert_eq!(unfinished(&dispatcher), [0]);
        assert_eq!(content(&dispatcher), before);
        assert_eq!(RefusedRun::from(error), run.alone().unwrap_err());
        (error.number(), error.place())
    };
    let with = |change: fn(&mut Handed)| {
        let mut run = lorenz(2);
        change(&mut run);
        run
    };
    assert_eq!(
        refused(with(|run| {
            let config = run.config.clone();
            run.config = config.with_transient_windows(MAX_COUNT + 1);
        })),
        (5, 2)
    );
    let mut short = linear(&[1.0], &[1.0, 1.0], 2);
    assert_eq!(refused(linear(&[1.0], &[1.0, 1.0], 2)), (9, 0));
    // 9 has its place before 10.
    short.state.clear();
    assert_eq!(refused(short), (9, 0));
    assert_eq!(refused(with(|run| run.state[1] = f64::NAN)), (11, 1));
    let long = |run: &mut Handed| {
        run.config = BenettinConfig::new(1, 1e308, 2, 1).unwrap();
    };
    assert_eq!(refused(with(long)), (15, 0));
}

#[test]
fn a_free_name_is_used_again() {
    let mut dispatcher = Dispatcher::new();
    for windows in [2, 1, 1, 2] {
        lorenz(windows).to(&mut dispatcher).unwrap();
    }
    let mut over = vec![];
    for _ in 0..8 {
        let turn = dispatcher.turn().unwrap();
        if turn.answer().is_some() {
            over.push(turn.name());
        }
    }
    assert_eq!((over, unfinished(&dispatcher)), (vec![1, 2], vec![0, 3]));
    assert_eq!(ring(1).to(&mut dispatcher), Ok(1));
    assert_eq!(ring(1).to(&mut dispatcher), Ok(2));
    assert_eq!(ring(1).to(&mut dispatcher), Ok(4));
    // The new ones wait behind those that were there.
    let order: Vec<usize> = (0..5).map(|_| dispatcher.turn().unwrap().name()).collect();
    assert_eq!(order, [0, 3, 1, 2, 4]);
}

#[test]
fn with_nobody_next_a_turn_changes_nothing() {
    let mut dispatcher = Dispatcher::new();
    assert_eq!(dispatcher.turn(), None);
    linear(&[1.0], &[1.0], 1).to(&mut dispatcher).unwrap();
    while dispatcher.turn().is_some() {}
    let before = content(&dispatcher);
    assert_eq!((dispatcher.next(), dispatcher.turn()), (None, None));
    assert_eq!(content(&dispatcher), before);
    assert_eq!(unfinished(&dispatcher), []);
}

#[test]
fn a_copy_goes_its_own_way() {
    let mut dispatcher = Dispatcher::default();
    let runs = [lorenz(3), ring(1)];
    for run in &runs {
        run.to(&mut dispatcher).unwrap();
    }
    dispatcher.turn();
    let mut copy = dispatcher.clone();
    assert_eq!(format!("{copy:?}"), "Dispatcher {0: 1, 1: 0}");
    for dispatcher in [&mut copy, &mut dispatcher] {
        let mut answered = 0;
        while let Some(turn) = dispatcher.turn() {
            let name = turn.name();
            if let Some(answer) = turn.into_answer() {
                assert_eq!(answer, runs[name].alone());
                answered += 1;
            }
        }
        assert_eq!(answered, 2);
    }
}
