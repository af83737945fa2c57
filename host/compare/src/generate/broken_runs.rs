//! Runs with one or two failing tests.

use super::circuits::{self, diagonal, known, linear};
use super::seeds::seed_with_zero;
use super::{bad_step_size, pair, pairs, runs, settings, tests_of, wrong_length};
use crate::cases::Run;
use crate::circuit::Circuit;
use crate::random::Random;
use input::MAX_COUNT;

type Break = fn(&mut Run, &mut Random);

/// The failing tests, with the number of the refusal. Those that replace the circuit come first,
/// so that they do not undo the others.
const BREAKS: [(u64, Break); 23] = [
    (18, late_start),
    (7, |run, random| {
        let circuit = circuits::of_dimension_zero(random);
        replace(run, circuit, random)
    }),
    (8, |run, random| {
        let circuit = circuits::of_large_dimension(random);
        replace(run, circuit, random)
    }),
    (25, |run, random| {
        let circuit = circuits::of_few_cells(random);
        replace(run, circuit, random)
    }),
    (14, zero_draw),
    (16, growing_state),
    (17, growing_tangents),
    (9, |run, random| {
        let circuit = circuits::of_unfit_matrix(&run.circuit, random);
        replace(run, circuit, random)
    }),
    (1, |run, _| run.settings.top_k = 0),
    (2, |run, random| {
        run.settings.step_size = bad_step_size(random)
    }),
    (3, |run, _| run.settings.steps_per_window = 0),
    (4, |run, _| run.settings.windows = 0),
    (5, |run, random| {
        run.settings.steps_per_window = settings::over(random)
    }),
    (5, |run, random| {
        run.settings.windows = settings::over(random)
    }),
    (5, |run, random| {
        run.settings.transient_windows = settings::over(random)
    }),
    (6, unfit_time),
    (10, unfit_state),
    (11, state_not_finite),
    (12, many_exponents),
    (13, |run, random| run.rows = shortened(run.rows, random)),
    (13, |run, random| {
        run.exponents = shortened(run.exponents, random)
    }),
    (13, |run, random| {
        run.final_state = shortened(run.final_state, random)
    }),
    (15, long_window),
];

/// Those of the steps of a warm-up window, where they are drawn.
const BREAKS_OF_WARM_UP_STEPS: [(u64, Break); 2] = [
    (29, |run, _| {
        run.settings.steps_per_transient_window = Some(0)
    }),
    (5, |run, random| {
        run.settings.steps_per_transient_window = Some(settings::over(random))
    }),
];

/// The number of pairs of failing tests, each test alone included.
pub const PAIRS: u64 = pairs(BREAKS.len() + BREAKS_OF_WARM_UP_STEPS.len()) as u64;

/// Those that the drawn runs can fail.
fn breaks(random: &Random) -> Vec<(u64, Break)> {
    let mut breaks = tests_of(&BREAKS, random);
    if random.warm_up_steps {
        breaks.extend(BREAKS_OF_WARM_UP_STEPS);
    }
    breaks
}

/// The run with the failing tests of a pair; every pair has its turn.
pub fn broken(index: u64, random: &mut Random) -> Run {
    let breaks = breaks(random);
    let (first, second) = pair(index, breaks.len());
    let mut run = whole_run(random);
    breaks[first].1(&mut run, random);
    if first != second {
        breaks[second].1(&mut run, random);
    }
    run
}

/// A run for each failing test.
pub fn each(random: &mut Random) -> Vec<Run> {
    let breaks = breaks(random);
    let mut failing = |fail: &Break| {
        let mut run = whole_run(random);
        fail(&mut run, random);
        run
    };
    breaks.iter().map(|(_, fail)| failing(fail)).collect()
}

/// Runs that fail two tests next to each other in the order of tests.
pub fn neighbours(random: &mut Random) -> Vec<Run> {
    let breaks = breaks(random);
    let at = |number: u64| breaks.iter().position(|test| test.0 == number);
    let mut run = |first: usize, second: usize| {
        let mut run = whole_run(random);
        breaks[first.min(second)].1(&mut run, random);
        breaks[first.max(second)].1(&mut run, random);
        run
    };
    let tests: Vec<usize> = Run::TESTS.into_iter().filter_map(at).collect();
    tests.windows(2).map(|two| run(two[0], two[1])).collect()
}

fn whole_run(random: &mut Random) -> Run {
    let circuit = known(random);
    let step_size = random.between(0.001, 0.1);
    runs::short(random, circuit, step_size, Random::ordinary)
}

/// Another circuit, with a state, exponents and outputs that fit it as far as it has a dimension.
fn replace(run: &mut Run, circuit: Circuit, random: &mut Random) {
    let d = circuit.dimension().min(20);
    let mut settings = run.settings;
    settings.top_k = settings.top_k.clamp(1, d.max(1));
    let state = random.list(d, Random::ordinary);
    *run = Run::fitting(circuit, settings, run.time, state);
    run.final_state = d;
}

fn zero_draw(run: &mut Run, random: &mut Random) {
    replace(run, linear(1, vec![0.5]), random);
    run.settings.seed = seed_with_zero(random, 0);
}

/// The state overflows in the first step or in a later one; the directions overflow with it.
fn growing_state(run: &mut Run, random: &mut Random) {
    let d = 1 + random.size_below(3);
    let rate = random.pick(&[1e20, 1e40, 1e70]);
    replace(run, diagonal(&vec![rate; d]), random);
    run.state = vec![1.0; d];
    run.settings.step_size = 1.0;
    run.settings.steps_per_window = 16;
}

/// The state rests while the directions overflow.
fn growing_tangents(run: &mut Run, random: &mut Random) {
    growing_state(run, random);
    run.state.fill(0.0);
}

fn unfit_time(run: &mut Run, random: &mut Random) {
    run.time = random.not_finite();
    if random.one_in(3) {
        // Counts at their limits pass 5; no step is made, since 6 refuses.
        run.settings.steps_per_window = MAX_COUNT;
        run.settings.windows = MAX_COUNT;
        run.settings.transient_windows = MAX_COUNT;
    }
}

fn unfit_state(run: &mut Run, random: &mut Random) {
    let length = wrong_length(random, run.state.len());
    run.state.resize(length, 0.0);
}

fn state_not_finite(run: &mut Run, random: &mut Random) {
    if run.state.is_empty() {
        run.state.push(0.0);
    }
    for _ in 0..=random.below(2) {
        let at = random.size_below(run.state.len());
        run.state[at] = random.not_finite();
    }
}

/// More exponents than dimensions; where there are not very many, the outputs have room for them.
fn many_exponents(run: &mut Run, random: &mut Random) {
    let d = run.circuit.dimension().min(20);
    run.settings.top_k = random.pick(&[d + 1, d + 2, 1 << 32, 1 << 63, usize::MAX]);
    if run.settings.top_k <= 22 && run.settings.windows <= 10 {
        run.rows = run.settings.rows_length();
        run.exponents = run.settings.top_k;
    }
}

/// One entry short, mostly.
fn shortened(length: usize, random: &mut Random) -> usize {
    if random.one_in(4) {
        random.size_below(length.max(1))
    } else {
        length.saturating_sub(1)
    }
}

fn long_window(run: &mut Run, random: &mut Random) {
    run.settings.step_size = random.pick(&[1e308, f64::MAX]);
    run.settings.steps_per_window = random.pick(&[2, 3, MAX_COUNT]);
}

/// The time overflows after one or a few steps.
fn late_start(run: &mut Run, random: &mut Random) {
    replace(run, linear(2, vec![0.0; 4]), random);
    run.time = random.pick(&[1.7e308, 1.5e308, 1.2e308]);
    run.settings.step_size = 2e307;
    run.settings.steps_per_window = random.within(1, 4);
}
