//! Document 01's marked examples and edges.

use super::circuits::{diagonal, linear, ring};
use super::orth::of_zeros;
use super::runs::HALVING;
use super::seeds::seed_with_draw;
use crate::cases::{Case, Orth, Run, Step};
use crate::circuit::Circuit;
use crate::random::Random;
use crate::values::Answer;
use input::{Refusal, Settings, System};

/// Settings with one step a window, one window, no warm-up and the default seed.
pub fn settings(top_k: usize, step_size: f64) -> Settings {
    Settings::new(top_k, step_size, 1, 1)
}

/// Linear(1), matrix 1, h 6, state 1 steps to 115.
pub fn marked_step() -> Step {
    Step {
        circuit: linear(1, vec![1.0]),
        time: 0.0,
        step_size: 6.0,
        state: vec![1.0],
        directions: vec![],
        count: 0,
    }
}

/// Directions (2,0),(2,3) and (1,0),(2,0).
pub fn marked_directions() -> [Orth; 2] {
    [[2.0, 0.0, 2.0, 3.0], [1.0, 0.0, 2.0, 0.0]].map(|directions| Orth {
        dimension: 2,
        directions: directions.to_vec(),
        numbers: 4,
    })
}

/// A sum of negative zeros is -0.0, since it starts there: subtracted from the -0.0 of the second
/// direction it leaves +0.0.
pub fn sum_of_negative_zeros() -> Orth {
    Orth {
        dimension: 2,
        directions: vec![1.0, 0.0, -0.0, -1.0],
        numbers: 4,
    }
}

/// In a row of a matrix it is +0.0, since such a sum starts there: the state -0.0 steps to +0.0.
pub fn row_of_negative_zeros() -> Step {
    Step {
        circuit: linear(1, vec![0.0]),
        state: vec![-0.0],
        directions: vec![-0.0],
        count: 1,
        ..marked_step()
    }
}

/// The directions of gram_schmidt/specs/Marked, whose products are all -0.0.
fn small_products() -> Orth {
    let [three, four] = [3, 4].map(f64::from_bits);
    Orth {
        dimension: 3,
        directions: vec![0.25, -four, 3.0, -three, 0.5, -0.0],
        numbers: 4,
    }
}

/// Directions of which the start of the sums decides one entry: one with all numbers different, and
/// the first that a search finds, accepted and collapsed.
pub fn turned_zeros() -> Vec<Orth> {
    let searched = |number: u64| {
        let is_one = |orth: &Orth| orth.model().number() == number && orth.turned().len() == 1;
        let mut tried = (0..10_000).map(|seed| of_zeros(&mut Random::seeded(seed)));
        tried.find(is_one)
    };
    let found = [0, 14].into_iter().filter_map(searched);
    [small_products()].into_iter().chain(found).collect()
}

pub fn rossler(a: f64, b: f64, c: f64) -> Circuit {
    Circuit::of(System::Rossler { a, b, c })
}

/// -y - z is (-y) - z, which is +0.0 here, and not the negative of y + z.
pub fn rossler_at_zero() -> Step {
    Step {
        circuit: rossler(1.0, 0.0, 1.0),
        state: vec![-0.0, 0.0, -0.0],
        directions: vec![-0.0, 0.0, -0.0],
        count: 1,
        ..marked_step()
    }
}

/// A linear run with one step a window, from a state of ones at time 0.
pub fn linear_run(circuit: Circuit, top_k: usize, step_size: f64) -> Run {
    let d = circuit.dimension();
    Run::fitting(circuit, settings(top_k, step_size), 0.0, vec![1.0; d])
}

/// The edges of dimension, exponents, step size and outputs.
pub fn edges_of_settings() -> Vec<(Run, &'static str)> {
    let decay = |d: usize| diagonal(&vec![-0.25; d]);
    let smallest = f64::from_bits(1);
    let mut two_steps = linear_run(decay(1), 1, 1e308);
    two_steps.settings.steps_per_window = 2;
    let rests = || linear_run(linear(1, vec![0.0]), 1, 1.0);
    let (mut rows, mut exponents, mut final_state) = (rests(), rests(), rests());
    rows.rows -= 1;
    exponents.exponents -= 1;
    final_state.final_state -= 1;
    vec![
        (linear_run(decay(16), 2, 0.125), "d 16"),
        (linear_run(decay(17), 2, 0.125), "d 17"),
        (linear_run(decay(2), 2, 0.125), "K = d"),
        (linear_run(decay(2), 3, 0.125), "K = d + 1"),
        (linear_run(decay(2), 2, smallest), "h = 2^-1074 runs"),
        (linear_run(decay(2), 2, 0.0), "h = +0.0"),
        (linear_run(decay(2), 2, -0.0), "h = -0.0"),
        (
            linear_run(linear(1, vec![0.0]), 1, 1e308),
            "h = 1e308, 1 step",
        ),
        (two_steps, "h = 1e308, 2 steps"),
        (rows, "rows one float short"),
        (exponents, "exponents one float short"),
        (final_state, "final state one float short"),
    ]
}

/// 480 halvings leave the squared length 2^-960, which is not faint; 537 leave 2^-1074.
pub fn edges_of_lengths() -> Vec<(Run, &'static str)> {
    let run = |steps: u64| {
        let mut run = linear_run(diagonal(&[HALVING]), 1, 1.0);
        run.settings.steps_per_window = steps;
        run
    };
    vec![
        (run(480), "squared length 2^-960 is not faint"),
        (run(481), "squared length below 2^-960 is faint"),
        (run(537), "squared length 2^-1074 does not collapse"),
        (run(538), "squared length 0 collapses"),
        (faint_then_refused(), "a refused run has no faint counts"),
    ]
}

/// The direction, on the first axis, is faint in the first window; the state, on the second, grows
/// and overflows in the second window.
fn faint_then_refused() -> Run {
    let mut run = linear_run(diagonal(&[HALVING, 1.0]), 1, 1.0);
    run.settings.seed = seed_with_draw(&mut Random::seeded(1), 1, 1 << 52);
    run.settings.steps_per_window = 481;
    with_windows(run, 2)
}

/// Runs of the three nonlinear systems from the default seed, with warm-up.
pub fn usual_runs() -> Vec<(Run, &'static str)> {
    let lorenz = System::Lorenz {
        sigma: 10.0,
        rho: 28.0,
        beta: 8.0 / 3.0,
    };
    let van_der_pol = System::VanDerPol { mu: 1.0 };
    let systems = [
        (Circuit::of(lorenz), vec![1.0, 1.0, 1.0]),
        (rossler(0.2, 0.2, 5.7), vec![1.0, 1.0, 0.0]),
        (Circuit::of(van_der_pol), vec![2.0, 0.0]),
    ];
    let run = |(circuit, state): (Circuit, Vec<f64>)| {
        let mut settings = Settings::new(state.len(), 0.01, 10, 3);
        settings.transient_windows = 2;
        (
            Run::fitting(circuit, settings, 0.0, state),
            "usual parameters",
        )
    };
    systems.map(run).into()
}

/// A Rössler run that rests with a negative zero in its state, for one exponent.
pub fn negative_zero_at_rest() -> Run {
    Run::fitting(
        rossler(-1.0, -0.0, 1.0),
        settings(1, 1.0),
        0.0,
        vec![-0.0, 0.0, 0.0],
    )
}

/// Runs for K = 1 and K = 2, all else equal. For a strong shear the second direction collapses,
/// so that the two differ, as demand 3 lets them; for growth alike in all directions they agree.
pub fn pairs_of_demand_3() -> Vec<(Run, &'static str)> {
    let growth = |top_k| with_windows(linear_run(diagonal(&[1.0, 1.0]), top_k, 6.0), 2);
    let mut runs: Vec<_> = (1..=2).map(|k| (growth(k), "growth, k and K")).collect();
    let shear = |top_k: usize, seed: u64| {
        let circuit = linear(2, vec![0.0, 1e20, 0.0, 0.0]);
        let mut run = with_windows(linear_run(circuit, top_k, 6.0), 2);
        run.settings.seed = seed;
        run
    };
    let collapses = |seed: &u64| {
        let answer = shear(2, *seed).model();
        Answer::refusal(Refusal::at(14, 1))
            .difference(&answer)
            .is_none()
    };
    if let Some(seed) = (0..1000).find(collapses) {
        runs.extend((1..=2).map(|k| (shear(k, seed), "shear, k and K")));
    }
    runs
}

/// The same run with so many windows, and outputs that just fit.
pub fn with_windows(run: Run, windows: u64) -> Run {
    let mut settings = run.settings;
    settings.windows = windows;
    Run::fitting(run.circuit, settings, run.time, run.state)
}

/// Draws of -1, 0 and 1 - 2^-52 in dimension 1. The basis comes before test 15.
pub fn edges_of_draws(random: &mut Random) -> Vec<(Run, &'static str)> {
    let mut run = |n: u64| {
        let mut run = linear_run(linear(1, vec![0.5]), 1, 0.5);
        run.settings.seed = seed_with_draw(random, 0, n);
        run
    };
    let mut long_window = run(1 << 52);
    long_window.settings.step_size = 1e308;
    long_window.settings.steps_per_window = 2;
    vec![
        (
            long_window,
            "draw of 0 and an infinite window: the basis is tested first",
        ),
        (run(0), "draw of -1"),
        (run(1 << 52), "draw of 0 collapses before any step"),
        (run((1 << 53) - 1), "draw of 1 - 2^-52"),
    ]
}

/// A state whose entries differ, and are no whole numbers.
fn uneven(d: usize) -> Vec<f64> {
    let entry = |i: usize| 1.25 * i as f64 - 0.375 * (i * i % 5) as f64 - 1.1;
    (0..d).map(entry).collect()
}

/// A run of a ring with one step a window, from uneven cells at time 0. Where it has very many
/// cells, no memory has room for them.
pub fn ring_run(cells: usize, forcing: f64, top_k: usize) -> Run {
    let state = uneven(cells.min(17));
    let length = state.len();
    let mut run = Run::fitting(ring(cells, forcing), settings(top_k, 0.0625), 0.0, state);
    run.final_state = length;
    run
}

/// The edges of a ring's size and of its exponents, and every size with all its rates.
pub fn edges_of_rings() -> Vec<(Run, &'static str)> {
    let mut runs = vec![
        (ring_run(0, 8.0, 1), "no cells"),
        (ring_run(1, 8.0, 1), "1 cell"),
        (ring_run(3, 8.0, 3), "3 cells"),
        (ring_run(17, 8.0, 4), "17 cells"),
        (ring_run(usize::MAX, 8.0, 4), "the most cells"),
        (ring_run(4, 8.0, 5), "K = n + 1"),
        (ring_run(16, 8.0, 17), "K = n + 1"),
    ];
    runs.extend((4..=16).map(|n| (ring_run(n, 8.0, n), "K = n")));
    runs.extend((1..=4).map(|k| (with_windows(ring_run(5, 8.0, k), 2), "demand 3")));
    runs
}

/// A forcing may have any bits; one that is not finite shows in the first state.
pub fn edges_of_forcing() -> Vec<(Run, &'static str)> {
    let forcings = [
        (f64::NAN, "a NaN"),
        (
            f64::from_bits(0x7ff0_0000_0000_0001),
            "a NaN of the other sort",
        ),
        (f64::INFINITY, "an infinity"),
        (f64::NEG_INFINITY, "the negative infinity"),
        (0.0, "no forcing"),
        (-0.0, "-0.0"),
        (f64::from_bits(1), "the smallest forcing"),
        (f64::MIN_POSITIVE, "the smallest normal forcing"),
        (f64::MAX, "the largest forcing"),
        (-1e160, "a forcing whose square overflows"),
    ];
    let mut runs = forcings
        .map(|(forcing, remark)| (ring_run(4, forcing, 2), remark))
        .to_vec();
    let mut rests = ring_run(6, 0.3, 6);
    rests.state.fill(0.3);
    runs.push((rests, "cells that equal the forcing rest"));
    runs
}

/// A ring reads no matrix and tests none, whatever it is lent.
pub fn rings_with_a_matrix() -> Vec<(Run, &'static str)> {
    let lent = |length: usize| {
        let mut run = ring_run(4, 8.0, 4);
        run.circuit = run.circuit.with_matrix(&vec![f64::NAN; length]);
        (run, "a ring with a matrix")
    };
    [1, 15, 16, 17].map(lent).to_vec()
}

/// Steps of rings of every size; in those of zeros the order of the operations decides the signs.
pub fn steps_of_rings() -> Vec<(Step, &'static str)> {
    let step = |cells: usize, count: usize| Step {
        circuit: ring(cells, 8.0),
        step_size: 0.0625,
        state: uneven(cells),
        directions: uneven(cells * count),
        count,
        ..marked_step()
    };
    let mut steps: Vec<_> = (4..=16).map(|n| (step(n, 2), "a ring")).collect();
    for (forcing, sign) in [(0.0, -0.0), (-0.0, 0.0), (-0.0, -0.0)] {
        let mut zeros = step(4, 1);
        zeros.circuit = ring(4, forcing);
        zeros.state.fill(sign);
        zeros.directions.fill(sign);
        steps.push((zeros, "a ring of zeros"));
    }
    for (cells, remark) in [
        (0, "no cells"),
        (1, "1 cell"),
        (3, "3 cells"),
        (17, "17 cells"),
    ] {
        steps.push((step(cells, 1), remark));
    }
    steps
}

#[cfg(test)]
mod tests {
    use super::*;
    use crate::values::Value;

    #[test]
    fn where_sums_start() {
        let directions = Value::Floats(vec![1.0, 0.0, 0.0, -1.0]);
        let answer = sum_of_negative_zeros().model();
        assert!(answer
            .get("dirs")
            .is_some_and(|value| directions.admits(value)));
        let state = Value::Floats(vec![0.0]);
        let answer = row_of_negative_zeros().model();
        assert!(answer.get("state").is_some_and(|value| state.admits(value)));
    }

    #[test]
    fn a_cleared_zero_turns() {
        let turned = turned_zeros();
        let numbers: Vec<u64> = turned.iter().map(|orth| orth.model().number()).collect();
        assert_eq!(numbers, [0, 0, 14]);
        for orth in &turned {
            let signs: Vec<_> = orth.turned().iter().map(|at| (at.from, at.to)).collect();
            assert_eq!(signs, [((-0.0_f64).to_bits(), 0)]);
        }
        assert_eq!(turned[0].turned()[0].entry, 5);
    }

    #[test]
    fn the_resting_state_keeps_its_zero() {
        let state = Value::Floats(vec![-0.0, 0.0, 0.0]);
        let answer = negative_zero_at_rest().model();
        assert!(answer.get("final").is_some_and(|value| state.admits(value)));
    }

    #[test]
    fn a_negated_entry_keeps_its_zero() {
        let Some(Value::Floats(state)) = rossler_at_zero().model().get("state").cloned() else {
            panic!("a step has a state");
        };
        assert_eq!(state[0].to_bits(), 0);
    }

    #[test]
    fn the_refused_run_was_faint() {
        let answer = faint_then_refused().model();
        assert_eq!(answer.number(), 16);
        assert_eq!(answer.get("finished"), Some(&Value::Count(1)));
        let answer = with_windows(faint_then_refused(), 1).model();
        let mut counts = vec![0; 16];
        counts[0] = 1;
        assert_eq!(answer.get("faint"), Some(&Value::Counts(counts)));
    }

    #[test]
    fn the_sizes_of_rings_are_refused_in_their_order() {
        let numbers = |runs: Vec<(Run, _)>| -> Vec<u64> {
            runs.iter().map(|(run, _)| run.model().number()).collect()
        };
        let sizes = numbers(edges_of_rings());
        assert_eq!(sizes[..7], [7, 25, 25, 8, 8, 12, 12]);
        assert!(sizes[7..].iter().all(|number| *number == 0));
        let forcings = numbers(edges_of_forcing());
        assert_eq!(forcings[..4], [16; 4]);
        assert_eq!(numbers(rings_with_a_matrix()), [0; 4]);
    }

    #[test]
    fn the_pairs_show_both_sides() {
        let numbers: Vec<u64> = pairs_of_demand_3()
            .iter()
            .map(|(run, _)| run.model().number())
            .collect();
        assert_eq!(numbers, [0, 0, 0, 14]);
    }
}
