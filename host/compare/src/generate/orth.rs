//! Directions for the orthonormaliser.

use crate::cases::Orth;
use crate::random::Random;

pub fn orth(random: &mut Random) -> Orth {
    match random.below(12) {
        0 => refused(random),
        1 => one_long_direction(random),
        _ => directions(random),
    }
}

/// Directions of zeros, ones and numbers so small that their products sink to zeros: a dot product is
/// often a zero, and its sign decides that of a cleared one.
pub fn of_zeros(random: &mut Random) -> Orth {
    let (d, count) = (1 + random.size_below(5), 2 + random.size_below(3));
    let directions = random.list(count * d, |random| match random.below(4) {
        0 => random.sign() * f64::from_bits(1 + random.below(9)),
        _ => random.zero_or_one(),
    });
    Orth {
        dimension: d,
        directions,
        numbers: 2 * count,
    }
}

/// Directions of one of several families, with leftover entries and a second slice that may be
/// longer than needed.
fn directions(random: &mut Random) -> Orth {
    let (dimensions, counts) = random.pick(&[(5, 5), (5, 5), (5, 18), (20, 5), (20, 18)]);
    let d = 1 + random.size_below(dimensions);
    let count = random.size_below(counts);
    let mut directions = match random.below(6) {
        0 => random.list(count * d, Random::ordinary),
        1 => dependent(random, d, count),
        2 => scaled(random, d, count),
        3 => random.list(count * d, Random::finite_edge),
        4 => random.list(count * d, Random::any),
        _ => whole(random, d, count),
    };
    let leftover = random.size_below(d);
    directions.extend(random.list(leftover, Random::any));
    Orth {
        dimension: d,
        directions,
        numbers: 2 * count + random.pick(&[0, 0, 1, 3]),
    }
}

/// Directions of which one is zero, equal to an earlier one or a multiple of it.
fn dependent(random: &mut Random, d: usize, count: usize) -> Vec<f64> {
    let mut directions = random.list(count * d, Random::ordinary);
    if count > 1 {
        let target = 1 + random.size_below(count - 1);
        let earlier = random.size_below(target);
        let factor = random.pick(&[0.0, 1.0, -2.0, 3.0]);
        for i in 0..d {
            directions[target * d + i] = factor * directions[earlier * d + i];
        }
    }
    directions
}

/// Directions of very different lengths: some faint, some that collapse, some too long.
fn scaled(random: &mut Random, d: usize, count: usize) -> Vec<f64> {
    let mut directions = random.list(count * d, |random| random.between(-1.0, 1.0));
    for direction in directions.chunks_mut(d) {
        let exponent = match random.below(4) {
            0 => random.between(-545.0, -475.0),
            1 => random.between(505.0, 516.0),
            2 => random.between(-300.0, 300.0),
            _ => 0.0,
        };
        for entry in direction {
            *entry *= exponent.exp2();
        }
    }
    directions
}

/// Small whole entries, times a power of two: many sums are exact, and many directions depend.
fn whole(random: &mut Random, d: usize, count: usize) -> Vec<f64> {
    let exponent = random.pick(&[0.0, -480.0, -481.0, -537.0, -538.0, 500.0]);
    random.list(count * d, |random| {
        (random.within(0, 4) as f64 - 2.0) * f64::exp2(exponent)
    })
}

/// A single direction with one entry at a power of two: the squared length is its exact square.
fn one_long_direction(random: &mut Random) -> Orth {
    let d = 1 + random.size_below(3);
    let exponent = random.pick(&[
        -538.0, -537.0, -512.0, -511.0, -481.0, -480.0, -479.0, 511.0,
    ]);
    let mut directions = vec![0.0; d];
    directions[random.size_below(d)] = random.sign() * f64::exp2(exponent);
    Orth {
        dimension: d,
        directions,
        numbers: 2,
    }
}

/// Dimension 0, a second slice that is too short, or more dimensions than entries.
fn refused(random: &mut Random) -> Orth {
    let mut orth = directions(random);
    let needed = 2 * (orth.directions.len() / orth.dimension);
    match random.below(3) {
        0 => orth.dimension = 0,
        1 => orth.numbers = needed.saturating_sub(1 + random.size_below(3)),
        _ => orth.dimension = random.pick(&[orth.directions.len() + 1, 1 << 40, usize::MAX]),
    }
    orth
}
