//! Lists of hand-ins and turns whose answers are known.

use super::*;
use crate::run::estimate;
use input::{Settings, MAX_COUNT};

const UNTOUCHED: f64 = 77.0;

/// A run of dimension 1 by steps of size 6, one a window, which multiply by 115 where the entry is 1;
/// with outputs for three windows.
#[derive(Clone, Debug)]
struct Circuit {
    system: System,
    state: [f64; 1],
    settings: Settings,
    rows: [f64; 9],
    exponents: [f64; 1],
    final_state: [f64; 1],
}

fn circuit(entry: f64, windows: u64) -> Circuit {
    Circuit {
        system: System::Linear {
            dimension: 1,
            matrix: vec![entry],
        },
        state: [1.0],
        settings: Settings::new(1, 6.0, 1, windows),
        rows: [UNTOUCHED; 9],
        exponents: [UNTOUCHED],
        final_state: [UNTOUCHED],
    }
}

impl Circuit {
    fn input(&self) -> Input<'_> {
        Input {
            system: &self.system,
            time: 0.0,
            state: &self.state,
            settings: &self.settings,
        }
    }

    fn matrix(&self) -> Vec<f64> {
        match &self.system {
            System::Linear { matrix, .. } => matrix.clone(),
            _ => vec![],
        }
    }

    fn lent(&mut self) -> Outputs<'_> {
        Outputs {
            rows: &mut self.rows,
            exponents: &mut self.exponents,
            final_state: &mut self.final_state,
        }
    }

    fn turn(&mut self, dispatcher: &mut Dispatcher) -> Turn {
        let matrix = self.matrix();
        let turn = dispatcher.turn(&matrix, &mut self.lent());
        turn.expect("somebody is next")
    }

    fn slices(&self) -> ([f64; 9], [f64; 1], [f64; 1]) {
        (self.rows, self.exponents, self.final_state)
    }
}

/// Name, begun windows and, once it is over, number and finished windows.
fn told(turn: &Turn) -> (u64, u64, Option<(u64, u64)>) {
    let over = match &turn.stage {
        Stage::Over(answer) => Some((answer.refusal.map_or(0, |r| r.number), answer.finished)),
        _ => None,
    };
    (turn.name, turn.begun, over)
}

/// A dispatcher with these runs.
fn with<const N: usize>(circuits: &[Circuit; N]) -> Dispatcher {
    let mut dispatcher = Dispatcher::default();
    for (name, circuit) in (0..).zip(circuits) {
        assert_eq!(dispatcher.hand_in(circuit.input()), Ok(name));
    }
    dispatcher
}

#[test]
fn turns_go_round_and_answer_as_alone() {
    let mut circuits = [circuit(1.0, 3), circuit(1e30, 3), circuit(0.0, 1)];
    circuits[2].settings.transient_windows = 1;
    let mut dispatcher = with(&circuits);
    let mut seen = vec![];
    while let Some(name) = dispatcher.next() {
        let turn = circuits[name as usize].turn(&mut dispatcher);
        seen.push(told(&turn));
    }
    // The second grows by 5.4e121 a window, past the largest float in the third.
    let expected = [
        (0, 1, None),
        (1, 1, None),
        (2, 1, None),
        (0, 2, None),
        (1, 2, None),
        (2, 2, Some((0, 1))),
        (0, 3, Some((0, 3))),
        (1, 3, Some((16, 2))),
    ];
    assert_eq!(seen, expected);
    for dispatched in circuits {
        let Input {
            system,
            time,
            state,
            settings,
        } = dispatched.input();
        let mut alone = circuit(0.0, 1);
        estimate(system, time, state, settings, &mut alone.lent());
        assert_eq!(dispatched.slices(), alone.slices());
    }
}

#[test]
fn rows_are_there_between_turns() {
    let mut growth = circuit(1.0, 3);
    growth.settings.transient_windows = 1;
    let mut dispatcher = with(&[growth.clone()]);
    let mut written = vec![];
    for _ in 0..3 {
        assert_eq!(told(&growth.turn(&mut dispatcher)).2, None);
        written.push(growth.rows.iter().filter(|x| **x != UNTOUCHED).count());
    }
    assert_eq!(written, [0, 3, 6]);
    assert_eq!(growth.rows[3], 18.0);
    assert_eq!(
        (growth.exponents, growth.final_state),
        ([UNTOUCHED], [UNTOUCHED])
    );
}

#[test]
fn an_unfit_turn_is_not_spent() {
    let mut circuits = [circuit(1.0, 3), circuit(1.0, 3)];
    let mut dispatcher = with(&circuits);
    circuits[0].turn(&mut dispatcher);
    circuits[1].turn(&mut dispatcher);
    let before = circuits[0].slices();
    let mut unfit = |matrix: &[f64], rows: usize, exponents: usize, last: usize| {
        let circuit = &mut circuits[0];
        let mut outputs = Outputs {
            rows: &mut circuit.rows[..rows],
            exponents: &mut circuit.exponents[..exponents],
            final_state: &mut circuit.final_state[..last],
        };
        let turn = dispatcher.turn(matrix, &mut outputs).unwrap();
        assert_eq!(told(&turn), (0, 1, None));
        match turn.stage {
            Stage::Unfit(refusal) => (refusal.number, refusal.place),
            _ => (0, 0),
        }
    };
    assert_eq!(unfit(&[], 0, 0, 0), (9, 0));
    assert_eq!(unfit(&[1.0, 1.0], 9, 1, 1), (9, 0));
    assert_eq!(unfit(&[1.0], 8, 0, 0), (13, 0));
    assert_eq!(unfit(&[1.0], 9, 0, 0), (13, 1));
    assert_eq!(unfit(&[1.0], 9, 1, 0), (13, 2));
    assert_eq!(circuits[0].slices(), before);
    assert_eq!(told(&circuits[0].turn(&mut dispatcher)), (0, 2, None));
}

#[test]
fn a_name_is_the_least_free_number() {
    let mut circuits = [(); 8].map(|()| circuit(1.0, 2));
    circuits[2].settings.windows = 1;
    circuits[5].settings.windows = 1;
    let mut dispatcher = with(&circuits);
    let ninth = dispatcher.hand_in(circuit(1.0, 0).input());
    assert_eq!(ninth, Err(Refusal::of(28)));
    for circuit in &mut circuits {
        circuit.turn(&mut dispatcher);
    }
    // 2 and 5 are over; 0 is in front, and the new ones come last.
    assert_eq!(dispatcher.next(), Some(0));
    for name in [2, 5] {
        assert_eq!(dispatcher.hand_in(circuit(1.0, 1).input()), Ok(name));
    }
    let order = [0, 1, 3, 4, 6, 7, 2, 5];
    for name in order {
        assert_eq!(dispatcher.next(), Some(name));
        circuit(1.0, 2).turn(&mut dispatcher);
    }
    assert_eq!(dispatcher.next(), None);
    assert!(dispatcher.turn(&[], &mut circuit(1.0, 1).lent()).is_none());
}

#[test]
fn a_hand_in_makes_all_tests_before_a_window_but_two() {
    let mut dispatcher = Dispatcher::default();
    let mut refused = |change: fn(&mut Circuit)| {
        let mut circuit = circuit(1.0, 1);
        change(&mut circuit);
        let handed_in = dispatcher.hand_in(circuit.input());
        assert_eq!(dispatcher.next(), None);
        handed_in.map_err(|refusal| (refusal.number, refusal.place))
    };
    assert_eq!(refused(|run| run.settings.windows = 0), Err((4, 0)));
    assert_eq!(
        refused(|run| run.settings.transient_windows = MAX_COUNT + 1),
        Err((5, 2))
    );
    assert_eq!(refused(|run| run.state = [f64::NAN]), Err((11, 0)));
    assert_eq!(refused(|run| run.settings.top_k = 2), Err((12, 0)));
    let long = |run: &mut Circuit| {
        run.settings.step_size = 1e308;
        run.settings.steps_per_window = 2;
    };
    assert_eq!(refused(long), Err((15, 0)));
}

/// The matrix of a linear system comes with the turn: what is handed in beside it is not looked at.
#[test]
fn a_hand_in_reads_no_matrix() {
    let mut dispatcher = Dispatcher::default();
    let system = |dimension| System::Linear {
        dimension,
        matrix: vec![f64::NAN; 3],
    };
    let settings = Settings::new(1, 6.0, 1, 1);
    let mut hand_in = |dimension: usize| {
        dispatcher.hand_in(Input {
            system: &system(dimension),
            time: 0.0,
            state: &[1.0],
            settings: &settings,
        })
    };
    assert_eq!(hand_in(1), Ok(0));
    assert_eq!(hand_in(0), Err(Refusal::of(7)));
    assert_eq!(hand_in(17), Err(Refusal::of(8)));
    assert_eq!(hand_in(2), Err(Refusal::of(10)));
    assert_eq!(told(&circuit(1.0, 1).turn(&mut dispatcher)).2, Some((0, 1)));
}
