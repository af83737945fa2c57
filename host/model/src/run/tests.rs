//! Runs whose answers are known.

use super::*;
use crate::logarithm;

const UNTOUCHED: f64 = 77.0;

/// A matrix entry for which a step of size 1 halves every power of two exactly.
const HALVING: f64 = f64::from_bits(0xbfe6_422c_ee14_ced0);

/// A linear run of `windows` windows of `steps` steps at `h`, with outputs that just fit.
struct Linear {
    system: System,
    state: Vec<f64>,
    time: f64,
    settings: Settings,
    rows: Vec<f64>,
    exponents: Vec<f64>,
    final_state: Vec<f64>,
}

impl Linear {
    fn new(matrix: &[f64], dimension: usize, k: usize, h: f64, steps: u64, windows: u64) -> Self {
        let matrix = matrix.to_vec();
        Self {
            system: System::Linear { dimension, matrix },
            state: vec![0.0; dimension],
            time: 0.0,
            settings: Settings::new(k, h, steps, windows),
            rows: vec![UNTOUCHED; windows.min(9) as usize * (1 + 2 * k.min(99))],
            exponents: vec![UNTOUCHED; k.min(99)],
            final_state: vec![UNTOUCHED; dimension],
        }
    }

    fn run(&mut self) -> Estimate {
        let mut outputs = Outputs {
            rows: &mut self.rows,
            exponents: &mut self.exponents,
            final_state: &mut self.final_state,
        };
        let (system, settings) = (&self.system, &self.settings);
        estimate(system, self.time, &self.state, settings, &mut outputs)
    }

    fn refusal(&mut self) -> Option<Refusal> {
        self.run().refusal
    }
}

#[test]
fn the_example_of_one_dimension() {
    // One step of size 6 multiplies by 115, and the direction is a unit.
    let mut run = Linear::new(&[1.0], 1, 1, 6.0, 1, 2);
    let answer = run.run();
    assert_eq!(answer.refusal, None);
    assert_eq!((answer.finished, answer.steps), (2, 2));
    assert_eq!((answer.final_time, answer.measured_time), (12.0, 12.0));
    let rate = logarithm(115.0).unwrap() / 6.0;
    assert_eq!(run.rows, [6.0, rate, rate, 12.0, rate, rate]);
    assert_eq!(run.exponents, [rate]);
    assert_eq!(run.final_state, [0.0]);
}

#[test]
fn edges_of_the_dimension() {
    let mut run = Linear::new(&[0.0; 256], 16, 16, 1.0, 1, 1);
    assert_eq!(run.refusal(), None);
    let mut run = Linear::new(&[0.0; 289], 17, 17, 1.0, 1, 1);
    assert_eq!(run.refusal(), Some(Refusal::of(8)));
    let mut run = Linear::new(&[0.0; 4], 2, 3, 1.0, 1, 1);
    assert_eq!(run.refusal(), Some(Refusal::of(12)));
}

#[test]
fn cells_of_a_ring_are_tested_after_the_time_and_before_the_state() {
    let ask = |cells: usize, time: f64, state: &[f64], k: usize| {
        let forcing = 8.0;
        let system = System::Lorenz96 { cells, forcing };
        validate(&system, time, state, &Settings::new(k, 1.0, 1, 1))
    };
    let state = [f64::NAN; 4];
    assert_eq!(ask(3, f64::NAN, &state, 5), Err(Refusal::of(6)));
    assert_eq!(ask(0, 0.0, &state, 5), Err(Refusal::of(7)));
    assert_eq!(ask(17, 0.0, &state, 5), Err(Refusal::of(8)));
    assert_eq!(ask(3, 0.0, &state, 5), Err(Refusal::of(25)));
    assert_eq!(ask(3, 0.0, &state[..3], 5), Err(Refusal::of(25)));
    assert_eq!(ask(5, 0.0, &state, 5), Err(Refusal::of(10)));
    assert_eq!(ask(4, 0.0, &state, 5), Err(Refusal::at(11, 0)));
    assert_eq!(ask(4, 0.0, &[1.0; 4], 5), Err(Refusal::of(12)));
    assert_eq!(ask(4, 0.0, &[1.0; 4], 4), Ok(()));
}

#[test]
fn edges_of_the_step_size() {
    let smallest = f64::from_bits(1);
    assert_eq!(Linear::new(&[0.0], 1, 1, smallest, 1, 1).refusal(), None);
    for zero in [0.0, -0.0] {
        let refusal = Linear::new(&[0.0], 1, 1, zero, 1, 1).refusal();
        assert_eq!(refusal, Some(Refusal::of(2)));
    }
    assert_eq!(Linear::new(&[0.0], 1, 1, 1e308, 1, 1).refusal(), None);
    let refusal = Linear::new(&[0.0], 1, 1, 1e308, 2, 1).refusal();
    assert_eq!(refusal, Some(Refusal::of(15)));
}

#[test]
fn outputs_one_short() {
    let mut run = Linear::new(&[0.0], 1, 1, 1.0, 1, 1);
    run.rows.pop();
    run.exponents.pop();
    run.final_state[0] = UNTOUCHED;
    assert_eq!(run.refusal(), Some(Refusal::at(13, 0)));
    run.rows.push(UNTOUCHED);
    assert_eq!(run.refusal(), Some(Refusal::at(13, 1)));
    assert_eq!(run.rows, [UNTOUCHED; 3]);
    assert_eq!(run.final_state, [UNTOUCHED]);
}

#[test]
fn counts_over_the_limit() {
    // Steps, windows and warm-up, each at the limit or one above it, and the first that is over.
    let (at, over) = (16_777_216, 16_777_217);
    let rows = [
        ([at, at, at], None),
        ([at, at, over], Some(2)),
        ([at, over, at], Some(1)),
        ([at, over, over], Some(1)),
        ([over, at, at], Some(0)),
        ([over, at, over], Some(0)),
        ([over, over, at], Some(0)),
        ([over, over, over], Some(0)),
    ];
    for ([steps, windows, warm_up], first) in rows {
        let mut run = Linear::new(&[0.0], 1, 1, 1.0, steps, windows);
        run.settings.transient_windows = warm_up;
        run.time = f64::NAN;
        assert_eq!(first_count_over(&run.settings), first);
        let refusal = first.map_or(Refusal::of(6), |place| Refusal::at(5, place));
        assert_eq!(run.refusal(), Some(refusal));
    }
}

#[test]
fn the_mark_itself_is_not_faint() {
    let mut state = [1.0];
    let dimension = 1;
    let matrix = vec![HALVING];
    advance(
        &System::Linear { dimension, matrix },
        1.0,
        &mut state,
        &mut [],
    )
    .unwrap();
    assert_eq!(state, [0.5]);
    // 480 halvings leave the length 2^-480, whose square is the mark.
    let mut run = Linear::new(&[HALVING], 1, 1, 1.0, 480, 2);
    assert_eq!(run.run().faint, [0; 16]);
    let mut run = Linear::new(&[HALVING], 1, 1, 1.0, 481, 2);
    run.settings.transient_windows = 1;
    assert_eq!(run.run().faint[..2], [3, 0]);
}

#[test]
fn a_refused_run_keeps_its_finished_rows() {
    // Time 0 to 1.6e308 by steps of 8e307, and then past the largest float.
    let mut run = Linear::new(&[0.0], 1, 1, 8e307, 1, 3);
    let answer = run.run();
    assert_eq!(answer.refusal, Some(Refusal::of(18)));
    assert_eq!((answer.finished, answer.steps), (2, 2));
    assert_eq!(run.rows[..2], [8e307, 0.0]);
    assert_eq!(run.rows[3..5], [1.6e308, 0.0]);
    assert_eq!(run.rows[6..], [UNTOUCHED; 3]);
    assert_eq!(run.exponents, [UNTOUCHED]);
}
