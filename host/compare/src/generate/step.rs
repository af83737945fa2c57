//! Steps on their own.

use super::{bad_step_size, circuits, pair, tests_of, widely, wrong_length};
use crate::cases::Step;
use crate::circuit::Circuit;
use crate::random::Random;

/// The step at `index`. Every eighth has a pair of failing tests, each pair in its turn; where the
/// systems are of one kind, no test fails.
pub fn step(index: u64, random: &mut Random) -> Step {
    if index.is_multiple_of(8) && random.systems.kind().is_none() {
        return broken(index / 8, random);
    }
    let of_any_kind = |parameter: fn(&mut Random) -> f64| {
        move |random: &mut Random| circuits::of_any_kind(random, 16, parameter)
    };
    // Where the systems are of one kind, half of the steps are everyday ones.
    let families = if random.systems.kind().is_some() {
        8
    } else {
        5
    };
    match random.below(families) {
        0 | 5.. => moving(random, circuits::known, Random::ordinary),
        1 => moving(random, of_any_kind(Random::any), Random::any),
        2 => moving(
            random,
            of_any_kind(Random::finite_edge),
            Random::finite_edge,
        ),
        3 => moving(
            random,
            of_any_kind(Random::zero_or_one),
            Random::zero_or_one,
        ),
        _ => moving(random, of_any_kind(Random::ordinary), Random::finite),
    }
}

/// A step whose lengths fit.
fn moving(
    random: &mut Random,
    circuit: impl Fn(&mut Random) -> Circuit,
    entry: fn(&mut Random) -> f64,
) -> Step {
    let circuit = circuit(random);
    let d = circuit.dimension();
    let count = if widely(random, 3) {
        random.size_below(17)
    } else {
        random.size_below(4)
    };
    let step_size = match random.below(6) {
        0 => f64::from_bits(1),
        1 => random.pick(&[f64::MAX, 1e308, 1e154, f64::MIN_POSITIVE]),
        2 => random.within(1, 8) as f64,
        _ => random.between(1e-3, 0.5),
    };
    Step {
        circuit,
        time: random.ordinary(),
        step_size,
        state: random.list(d, entry),
        directions: random.list(d * count, entry),
        count,
    }
}

type Break = fn(&mut Step, &mut Random);

/// The failing tests in their order, of which those that replace the circuit come first, with the
/// number of the refusal.
const BREAKS: [(u64, Break); 9] = [
    (7, |step, random| {
        let circuit = circuits::of_dimension_zero(random);
        replace(step, circuit, random)
    }),
    (8, |step, random| {
        let circuit = circuits::of_large_dimension(random);
        replace(step, circuit, random)
    }),
    (25, |step, random| {
        let circuit = circuits::of_few_cells(random);
        replace(step, circuit, random)
    }),
    (9, |step, random| {
        let circuit = circuits::of_unfit_matrix(&step.circuit, random);
        replace(step, circuit, random)
    }),
    (10, unfit_state),
    (19, unfit_directions),
    (19, many_directions),
    (6, unfit_time),
    (2, |step, random| step.step_size = bad_step_size(random)),
];

fn broken(index: u64, random: &mut Random) -> Step {
    let breaks = tests_of(&BREAKS, random);
    let (first, second) = pair(index, breaks.len());
    failing(breaks[first].1, breaks[second].1, random)
}

fn failing(first: Break, second: Break, random: &mut Random) -> Step {
    let mut step = moving(random, circuits::known, Random::ordinary);
    first(&mut step, random);
    second(&mut step, random);
    step
}

/// Steps that fail two tests next to each other in the order of tests.
pub fn neighbours(random: &mut Random) -> Vec<Step> {
    let breaks = tests_of(&BREAKS, random);
    let pairs = breaks.windows(2);
    pairs
        .map(|two| failing(two[0].1, two[1].1, random))
        .collect()
}

/// Another circuit, with a state and directions that fit it as far as it has a dimension.
fn replace(step: &mut Step, circuit: Circuit, random: &mut Random) {
    let d = circuit.dimension().min(20);
    step.circuit = circuit;
    step.state = random.list(d, Random::ordinary);
    step.directions = random.list(d * step.count, Random::ordinary);
}

fn unfit_state(step: &mut Step, random: &mut Random) {
    let length = wrong_length(random, step.state.len());
    step.state.resize(length, 0.0);
}

fn unfit_directions(step: &mut Step, random: &mut Random) {
    let length = wrong_length(random, step.directions.len());
    step.directions.resize(length, 0.0);
}

/// More than 16 directions; where there are not very many, the slice is as long as they ask.
fn many_directions(step: &mut Step, random: &mut Random) {
    step.count = random.pick(&[17, 18, 32, 1 << 60, 1 << 63, usize::MAX]);
    if step.count <= 32 {
        let length = step.count * step.circuit.dimension().min(20);
        step.directions.resize(length, 0.5);
    }
}

fn unfit_time(step: &mut Step, random: &mut Random) {
    step.time = random.not_finite();
}
