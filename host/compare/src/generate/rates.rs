//! Lists of rates.

use crate::cases::Rates;
use crate::random::Random;

pub fn rates(random: &mut Random) -> Rates {
    let length = match random.below(16) {
        0 => random.pick(&[0, 1, 255, 256, 257, 258, 300]),
        1 | 2 => random.size_below(257),
        _ => 1 + random.size_below(8),
    };
    let mut rates = match random.below(6) {
        0 => random.list(length, Random::ordinary),
        1 => tied(random, length),
        2 => random.list(length, Random::finite_edge),
        3 => random.list(length, Random::finite),
        4 => random.list(length, |random| {
            random.sign() * random.between(1e307, f64::MAX)
        }),
        _ => near_zero_sum(random, length),
    };
    if random.one_in(12) && length > 0 {
        for _ in 0..=random.below(2) {
            let at = random.size_below(length);
            rates[at] = random.not_finite();
        }
    }
    Rates(rates)
}

/// Rates with many ties, zeros of either sign among them.
fn tied(random: &mut Random, length: usize) -> Vec<f64> {
    random.list(length, |random| {
        random.pick(&[
            1.0,
            1.0,
            0.5,
            0.0,
            -0.0,
            -0.5,
            -1.0,
            -1.0,
            f64::from_bits(1),
        ])
    })
}

/// Positive rates and their negatives in another order, with small changes: the walk's sums come
/// close to zero from either side.
fn near_zero_sum(random: &mut Random, length: usize) -> Vec<f64> {
    let mut rates = random.list(length / 2, |random| random.between(0.0, 2.0));
    rates.extend(rates.clone().iter().rev().map(|x| -x));
    rates.resize(length, 0.0);
    if length > 0 && random.one_in(2) {
        let at = random.size_below(length);
        rates[at] *= 1.0 + random.power(-16.0, -3.0);
    }
    rates
}
