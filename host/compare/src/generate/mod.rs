//! Inputs for the comparisons: random ones, and ones made to reach an edge or a refusal.

pub mod broken_runs;
pub mod circuits;
pub mod counts;
pub mod dispatchers;
pub mod edges;
pub mod kept;
pub mod orth;
pub mod patterns;
pub mod rates;
pub mod runs;
pub mod seeds;
pub mod settings;
pub mod step;
pub mod stores;
pub mod turns;
pub mod warm_up;

use crate::random::Random;

/// Those of `tests`, each with the number of its refusal, that the drawn systems can fail: 25 is
/// for rings alone.
fn tests_of<T: Copy>(tests: &[(u64, T)], random: &Random) -> Vec<(u64, T)> {
    let rings = circuits::has_rings(random);
    let has = |test: &&(u64, T)| rings || test.0 != 25;
    tests.iter().filter(has).copied().collect()
}

/// One in `n`, or one in 2 where the systems are of one kind, since every size is to be met then.
fn widely(random: &mut Random, n: u64) -> bool {
    let of_one_kind = random.systems.kind().is_some();
    random.one_in(if of_one_kind { 2 } else { n })
}

/// Step sizes that 2 refuses.
pub fn bad_step_size(random: &mut Random) -> f64 {
    match random.below(4) {
        0 => random.pick(&[0.0, -0.0]),
        1 => -random.between(0.0, 2.0),
        2 => random.not_finite(),
        _ => random.pick(&[-f64::from_bits(1), -f64::MAX]),
    }
}

/// A length that is one or a few off.
pub fn wrong_length(random: &mut Random, length: usize) -> usize {
    match random.below(3) {
        0 => length + 1,
        1 => length + 1 + random.size_below(4),
        _ if length > 0 => length - 1,
        _ => 1,
    }
}

/// The number of unordered pairs of `n` things, each thing with itself included.
pub const fn pairs(n: usize) -> usize {
    n * (n + 1) / 2
}

/// The pair number `index`, and on from the first after the last; the smaller one comes first.
pub fn pair(index: u64, n: usize) -> (usize, usize) {
    let mut second = index as usize % pairs(n);
    let mut first = 0;
    while second >= n - first {
        second -= n - first;
        first += 1;
    }
    (first, first + second)
}

#[cfg(test)]
mod tests {
    use super::*;
    use crate::cases::{Case, Run};
    use crate::circuit::{Systems, KINDS};

    /// The kinds and dimensions of runs and of steps with these systems.
    fn drawn(systems: Systems) -> Vec<(Option<&'static str>, usize)> {
        let mut random = Random::seeded(1).with(systems);
        let mut circuits: Vec<_> = (0..2000)
            .map(|index| step::step(index, &mut random).circuit)
            .collect();
        circuits.extend((0..2000).map(|index| runs::run(index, &mut random).circuit));
        circuits
            .iter()
            .map(|circuit| (circuit.kind().map(|kind| kind.label), circuit.dimension()))
            .collect()
    }

    #[test]
    fn systems_are_of_the_wanted_kind() {
        for (number, kind) in KINDS.iter().enumerate() {
            let of_kind = |(label, d): &(Option<&str>, usize)| {
                *label == Some(kind.label) && kind.dimensions.contains(d)
            };
            let only = drawn(Systems::Of(number as u64));
            assert!(only.iter().all(of_kind), "{}", kind.label);
            let base = drawn(Systems::Base).iter().any(of_kind);
            assert_eq!(base, kind.label != ", Lorenz 96", "{}", kind.label);
            assert!(drawn(Systems::All).iter().any(of_kind), "{}", kind.label);
        }
    }

    #[test]
    fn few_cells_have_their_turn_among_neighbours() {
        let numbers = |systems| -> Vec<u64> {
            let mut random = Random::seeded(1).with(systems);
            let runs = broken_runs::neighbours(&mut random);
            runs.iter().map(|run: &Run| run.model().number()).collect()
        };
        // 7 and 8, 8 and 25, 25 and 9, 9 and 10: of two sizes the later one replaces the other.
        assert_eq!(numbers(Systems::All)[6..10], [8, 25, 25, 9]);
        assert_eq!(numbers(Systems::Base)[6..9], [8, 8, 9]);
    }

    #[test]
    fn every_pair_has_its_turn() {
        let met: Vec<_> = (0..pairs(3) as u64).map(|index| pair(index, 3)).collect();
        assert_eq!(met, [(0, 0), (0, 1), (0, 2), (1, 1), (1, 2), (2, 2)]);
        assert_eq!(pair(6, 3), (0, 0));
    }
}
