//! Runs that reach the end, and runs that are refused while they run.

use super::circuits::{cells, diagonal, dimension, has_rings, known, linear, of_any_kind, ring};
use super::seeds::{seed_with_draw, seed_with_zero};
use super::{broken_runs, settings};
use crate::cases::Run;
use crate::circuit::Circuit;
use crate::random::Random;
use input::System;

/// The run at `index`: families take turns, and some runs have outputs with room to spare.
pub fn run(index: u64, random: &mut Random) -> Run {
    let mut run = match index % 16 {
        _ if random.systems.kind().is_some() => of_one_kind(index, random),
        0 | 1 => chaotic(random),
        2 | 3 => linear_run(random),
        4 | 5 => decaying(random),
        6 => overflowing(random),
        7 => on_axes(random),
        8 => late(random),
        9 => small_step(random),
        10 => at_edges(random),
        11 => whole(random),
        12 => special_draw(random),
        13 => halving_run(random),
        _ => return broken_runs::broken(broken_before(index), random),
    };
    if random.one_in(2) {
        run.rows += random.size_below(4);
        run.exponents += random.size_below(3);
        run.final_state += random.size_below(3);
    }
    run
}

/// A run of a family that takes a system of any kind.
fn of_one_kind(index: u64, random: &mut Random) -> Run {
    match index % 8 {
        0..=3 => chaotic(random),
        4 => overflowing(random),
        5 => small_step(random),
        6 => at_edges(random),
        _ => special_draw(random),
    }
}

/// How many of the runs before `index` have failing tests: the last two of every sixteen.
pub fn broken_before(index: u64) -> u64 {
    index / 16 * 2 + (index % 16).saturating_sub(14)
}

/// A short run of `circuit` from a state of `entry`s.
pub fn short(
    random: &mut Random,
    circuit: Circuit,
    step_size: f64,
    entry: fn(&mut Random) -> f64,
) -> Run {
    let d = circuit.dimension();
    let top_k = if random.one_in(2) {
        d
    } else {
        1 + random.size_below(d)
    };
    let mut settings = settings::short(random, top_k, step_size);
    if d > 6 {
        settings.steps_per_window = random.within(1, 2);
        settings.windows = random.within(1, 2);
    }
    let state = random.list(d, entry);
    let time = random.between(-10.0, 10.0);
    Run::fitting(circuit, settings, time, state)
}

fn chaotic(random: &mut Random) -> Run {
    let circuit = known(random);
    let step_size = random.between(0.001, 0.1);
    short(random, circuit, step_size, |random| {
        random.between(-8.0, 8.0)
    })
}

fn linear_run(random: &mut Random) -> Run {
    let d = dimension(random, 16);
    let matrix = random.list(d * d, Random::ordinary);
    let step_size = random.pick(&[0.01, 0.1, 0.25, 1.0, 3.0]);
    short(random, linear(d, matrix), step_size, Random::ordinary)
}

/// 1 + z + z^2/2 + z^3/6 + z^4/24 and its derivative, for complex z: what a step does to a
/// direction of a linear system.
fn amplification(z: [f64; 2]) -> [[f64; 2]; 2] {
    let times = |a: [f64; 2], b: [f64; 2]| [a[0] * b[0] - a[1] * b[1], a[0] * b[1] + a[1] * b[0]];
    let (mut value, mut slope) = ([1.0, 0.0], [0.0, 0.0]);
    for divisor in [4.0, 3.0, 2.0, 1.0] {
        let [a, b] = times(value, z);
        let next = [1.0 + a / divisor, b / divisor];
        let [c, d] = times(slope, z);
        slope = [(c + value[0]) / divisor, (d + value[1]) / divisor];
        value = next;
    }
    [value, slope]
}

/// A zero of the amplification, by Newton's rule from nearby.
fn zero_of_amplification(start: [f64; 2]) -> [f64; 2] {
    let mut z = start;
    for _ in 0..20 {
        let [[a, b], [c, d]] = amplification(z);
        let size = c * c + d * d;
        z = [z[0] - (a * c + b * d) / size, z[1] - (b * c - a * d) / size];
    }
    z
}

/// A linear system of blocks that turn. In some of them a step shrinks a direction by many bits,
/// so that in a window it becomes faint or collapses.
fn decaying(random: &mut Random) -> Run {
    let blocks = 1 + random.size_below(3);
    let d = 2 * blocks + random.size_below(2);
    let mut matrix = vec![0.0; d * d];
    let start = random.pick(&[[-0.27, 2.5], [-1.73, 0.89]]);
    let mut bits = 1.0;
    for block in 0..blocks {
        let [mut a, mut b] = zero_of_amplification(start);
        let closeness = 10_f64.powf(random.between(-16.0, -2.0));
        a += random.sign() * closeness;
        if block > 0 && random.one_in(3) {
            [a, b] = [random.between(-0.1, 0.1), random.between(-1.0, 1.0)];
        } else {
            let [[x, y], _] = amplification([a, b]);
            bits = (-x.hypot(y).log2()).clamp(1.0, 60.0);
        }
        let at = 2 * block * d + 2 * block;
        (matrix[at], matrix[at + 1]) = (a, -b);
        (matrix[at + d], matrix[at + d + 1]) = (b, a);
    }
    if random.one_in(6) {
        return infinite_rate(random, d, matrix);
    }
    let mut run = short(random, linear(d, matrix), 1.0, Random::ordinary);
    // A length of 2^-480 is the faint mark, and one below 2^-537 collapses.
    run.settings.steps_per_window = (random.between(440.0, 560.0) / bits).ceil() as u64;
    run.settings.windows = random.within(1, 3);
    run.rows = run.settings.rows_length();
    run
}

/// The same with a step size so small that the logarithm of a length, divided by it, overflows.
fn infinite_rate(random: &mut Random, d: usize, mut matrix: Vec<f64>) -> Run {
    let step_size = f64::exp2(random.pick(&[-1021.0, -1020.0, -1019.0, -1018.0]));
    for entry in &mut matrix {
        *entry /= step_size;
    }
    let mut run = short(random, linear(d, matrix), step_size, |_| 0.0);
    run.settings.steps_per_window = 1;
    run
}

/// Growth past the largest float: of the state (16), of directions (17), of squared lengths (14).
fn overflowing(random: &mut Random) -> Run {
    if has_rings(random) && random.one_in(3) {
        return resting_ring(random);
    }
    let one_kind = random.systems.kind().is_some();
    if !one_kind && random.one_in(3) {
        return growing_rossler(random);
    }
    let d = 1 + random.size_below(4);
    let size = random.between(30.0, 160.0);
    let matrix = random.list(d * d, |random| random.power(size - 2.0, size));
    let step_size = random.pick(&[1.0, 1e-20, 1e10]);
    let state = random.pick(&[
        Random::ordinary,
        |_: &mut Random| 0.0,
        |_: &mut Random| -0.0,
    ]);
    let circuit = if one_kind || random.one_in(3) {
        of_any_kind(random, 3, |random| random.power(20.0, 150.0))
    } else {
        linear(d, matrix)
    };
    short(random, circuit, step_size, state)
}

/// A ring whose cells all equal its forcing: the state rests. The directions grow with the forcing.
/// Without one they shrink, and some become faint in a long window or collapse.
fn resting_ring(random: &mut Random) -> Run {
    if random.one_in(8) {
        let forcing = random.pick(&[0.0, -0.0]);
        // A step shrinks a direction by the most here.
        let mut run = short(random, ring(4, forcing), 1.596, |_| 0.0);
        run.settings.steps_per_window = random.within(250, 300);
        run.settings.windows = random.within(1, 2);
        return Run::fitting(run.circuit, run.settings, run.time, run.state);
    }
    // In a window of one step the growth is then near the largest square or the largest float, so
    // that some directions pass it and others do not.
    let near_bound = random.one_in(2);
    let (low, high) = if near_bound {
        random.pick(&[(38.4, 38.8), (76.7, 77.1)])
    } else {
        (0.0, 90.0)
    };
    let forcing = random.power(low, high);
    let circuit = ring(cells(random, 16), forcing);
    let mut run = short(random, circuit, 1.0, |_| 0.0);
    run.state.fill(forcing);
    if near_bound {
        run.settings.steps_per_window = 1;
    }
    run
}

/// A Rössler system with z and b zero: x and y grow on their own and z rests, while its direction
/// grows by more in each window than in the one before. In half of these runs it often overflows
/// in the second window, before the state does.
fn growing_rossler(random: &mut Random) -> Run {
    let second_window = random.one_in(2);
    let (growth, size) = if second_window {
        (random.power(14.0, 19.0), (0.0, 3.0))
    } else {
        (random.power(1.0, 6.0), (0.0, 20.0))
    };
    let circuit = Circuit::of(System::Rossler {
        a: growth,
        b: 0.0,
        c: random.ordinary(),
    });
    let mut run = short(random, circuit, 1.0, |_| 0.0);
    for entry in &mut run.state[..2] {
        *entry = random.power(size.0, size.1);
    }
    if second_window {
        run.settings.top_k = 3;
        run.settings.steps_per_window = 1;
        run.settings.transient_windows = 0;
        run.settings.windows = 3;
    }
    Run::fitting(run.circuit, run.settings, run.time, run.state)
}

/// A diagonal system in dimension 2 with a basis on its axes: each direction has a fate of its
/// own.
fn on_axes(random: &mut Random) -> Run {
    let factor = |random: &mut Random| match random.below(5) {
        // The amplification has its smallest real value here: 250 steps make a direction faint.
        0 | 1 => -1.596,
        2 => random.power(70.0, 100.0),
        3 => 0.0,
        _ => random.ordinary(),
    };
    let entries = [factor(random), factor(random)];
    let mut run = short(random, diagonal(&entries), 1.0, |_| 0.0);
    if entries.contains(&-1.596) && random.one_in(2) {
        run.settings.steps_per_window = random.within(250, 300);
    }
    run.settings.top_k = 2;
    run.settings.seed = seed_with_zero(random, 0);
    Run::fitting(run.circuit, run.settings, run.time, run.state)
}

/// Times that overflow (18), stand still, or make the measured time infinite.
fn late(random: &mut Random) -> Run {
    let d = 1 + random.size_below(3);
    let step_size = random.pick(&[1e307, 5e307, 1e308, 1.0, 1e-3]);
    let circuit = match random.below(3) {
        0 => linear(d, vec![0.0; d * d]),
        1 => diagonal(&vec![1e-308; d]),
        _ => linear(d, random.list(d * d, |random| random.power(-320.0, -308.0))),
    };
    let mut run = short(random, circuit, step_size, Random::ordinary);
    run.time = random.sign() * random.pick(&[1e308, 1.7e308, f64::MAX, 1e300, 0.0]);
    run.settings.steps_per_window = random.within(1, 2);
    run
}

/// Step sizes so small that nothing moves or that a rate is infinite.
fn small_step(random: &mut Random) -> Run {
    let step_size = random.pick(&[f64::from_bits(1), f64::MIN_POSITIVE, 1e-300, 1e-200]);
    let parameter = random.pick(&[Random::ordinary, |random: &mut Random| {
        random.power(0.0, 250.0)
    }]);
    let circuit = of_any_kind(random, 8, parameter);
    short(random, circuit, step_size, Random::ordinary)
}

/// Parameters that are zero, infinite or no number, and states at the edges of the format.
fn at_edges(random: &mut Random) -> Run {
    if random.one_in(3) {
        let circuit = of_any_kind(random, 4, Random::zero_or_one);
        return short(random, circuit, 1.0, Random::zero_or_one);
    }
    let circuit = of_any_kind(random, 4, Random::any);
    let step_size = random.pick(&[0.01, 1.0, f64::MAX, f64::MIN_POSITIVE, 1e154]);
    let entry = random.pick(&[Random::finite_edge, Random::finite, |_: &mut Random| 0.0]);
    short(random, circuit, step_size, entry)
}

/// Small whole matrices and step sizes: sums are exact and directions lose their rank.
fn whole(random: &mut Random) -> Run {
    let d = 1 + random.size_below(4);
    let entry = |random: &mut Random| random.within(0, 4) as f64 - 2.0;
    let mut matrix = random.list(d * d, entry);
    if random.one_in(2) {
        // Nothing on or below the diagonal: a power of the matrix is zero.
        for i in 0..d {
            matrix[i * d..i * d + i + 1].fill(0.0);
        }
    }
    let step_size = random.pick(&[1.0, 2.0, 6.0, 0.5, 1e9, 1e18, 1e40]);
    let mut run = short(random, linear(d, matrix), step_size, entry);
    if random.one_in(2) {
        run.settings.seed = random.below(8);
    } else {
        run.settings.seed = seed_with_zero(random, 0);
    }
    run
}

/// A first draw of 0, which collapses in dimension 1, of -1 or of 1 - 2^-52.
fn special_draw(random: &mut Random) -> Run {
    let circuit = if random.systems.kind().is_none() && random.one_in(2) {
        linear(1, vec![random.ordinary()])
    } else {
        of_any_kind(random, 3, Random::ordinary)
    };
    let mut run = short(random, circuit, 0.1, Random::ordinary);
    let n = random.pick(&[0, 1 << 52, (1 << 52) + 1, (1 << 53) - 1]);
    let index = random.below((run.settings.top_k * run.state.len()) as u64);
    run.settings.seed = seed_with_draw(random, index, n);
    if random.one_in(3) {
        run.settings.step_size = 1e308;
        run.settings.steps_per_window = 2;
    }
    run
}

/// A matrix entry, found by search, for which a step of size 1 halves a power of two exactly.
pub const HALVING: f64 = f64::from_bits(0xbfe6_422c_ee14_ced0);

/// Windows after which the squared length of a direction is a power of two: 480 halvings leave
/// 2^-960, which is not faint, and 537 leave 2^-1074, the smallest that does not collapse.
fn halving_run(random: &mut Random) -> Run {
    if !random.one_in(4) {
        return linear_run(random);
    }
    let entries = vec![HALVING; 1 + random.size_below(2)];
    let mut run = short(random, diagonal(&entries), 1.0, Random::ordinary);
    run.settings.steps_per_window = random.pick(&[479, 480, 481, 536, 537, 538]);
    run.settings.windows = random.within(1, 2);
    run.settings.transient_windows = random.below(2);
    if entries.len() == 2 {
        run.settings.seed = seed_with_zero(random, 0);
    }
    Run::fitting(run.circuit, run.settings, run.time, run.state)
}
