//! Modified Gram-Schmidt, twice for each direction.

use crate::{logarithm, square_root};
use input::Refusal;

/// Where every sum begins: document 02, d).
pub const SUM_START: f64 = -0.0;

/// Orthonormalises the directions of length `d` that lie one after the other; writes their
/// logarithms and then their squared lengths into `norms`.
pub fn orthonormalise(directions: &mut [f64], d: usize, norms: &mut [f64]) -> Result<(), Refusal> {
    orthonormalise_from(SUM_START, directions, d, norms)
}

/// The same with every sum from `start`, which tells what that zero decides.
pub fn orthonormalise_from(
    start: f64,
    directions: &mut [f64],
    d: usize,
    norms: &mut [f64],
) -> Result<(), Refusal> {
    if d == 0 {
        return Err(Refusal::of(7));
    }
    let count = directions.len() / d;
    if norms.len() / 2 < count {
        return Err(Refusal::of(13));
    }
    for v in 0..count {
        let (earlier, rest) = directions.split_at_mut(v * d);
        let direction = &mut rest[..d];
        clear(start, direction, earlier);
        clear(start, direction, earlier);
        let Some((log, squared)) = normalise(start, direction) else {
            return Err(Refusal::at(14, v as u64));
        };
        norms[v] = log;
        norms[count + v] = squared;
    }
    Ok(())
}

/// Clears a direction once of each earlier one.
fn clear(start: f64, direction: &mut [f64], earlier: &[f64]) {
    for basis in earlier.chunks(direction.len()) {
        let projection = dot(start, basis, direction);
        for (x, b) in direction.iter_mut().zip(basis) {
            *x -= projection * b;
        }
    }
}

/// Divides a direction by its length; answers the logarithm and the squared length, or `None`
/// where it collapses.
fn normalise(start: f64, direction: &mut [f64]) -> Option<(f64, f64)> {
    let squared = dot(start, direction, direction);
    let length = square_root(squared);
    if !length.is_finite() || length <= f64::MIN_POSITIVE {
        return None;
    }
    for x in direction.iter_mut() {
        *x /= length;
    }
    let log = logarithm(length).expect("a length above 2^-1022 and finite has a logarithm");
    Some((log, squared))
}

fn dot(start: f64, left: &[f64], right: &[f64]) -> f64 {
    let mut sum = start;
    for (a, b) in left.iter().zip(right) {
        sum += a * b;
    }
    sum
}

#[cfg(test)]
mod tests {
    use super::*;

    const UNTOUCHED: f64 = 77.0;

    #[test]
    fn marked_directions() {
        let mut directions = [2.0, 0.0, 2.0, 3.0];
        let mut norms = [UNTOUCHED; 5];
        assert_eq!(orthonormalise(&mut directions, 2, &mut norms), Ok(()));
        assert_eq!(directions, [1.0, 0.0, 0.0, 1.0]);
        let logs = [logarithm(2.0).unwrap(), logarithm(3.0).unwrap()];
        assert_eq!(norms, [logs[0], logs[1], 4.0, 9.0, UNTOUCHED]);
    }

    #[test]
    fn marked_collapse() {
        let mut directions = [1.0, 0.0, 2.0, 0.0];
        let mut norms = [UNTOUCHED; 4];
        let answer = orthonormalise(&mut directions, 2, &mut norms);
        assert_eq!(answer, Err(Refusal::at(14, 1)));
        assert_eq!(directions, [1.0, 0.0, 0.0, 0.0]);
        assert_eq!(norms, [0.0, UNTOUCHED, 1.0, UNTOUCHED]);
    }

    /// The products are −0.0 both, and so is their sum from −0.0: subtracted from −0.0 it leaves +0.0.
    #[test]
    fn a_cleared_zero_turns() {
        let directions = [1.0, 0.0, -0.0, -1.0];
        for (start, cleared) in [(-0.0, 0.0_f64), (0.0, -0.0)] {
            let mut left = directions;
            let answer = orthonormalise_from(start, &mut left, 2, &mut [0.0; 4]);
            assert_eq!(answer, Ok(()));
            assert_eq!(left[2].to_bits(), cleared.to_bits());
        }
        let mut left = directions;
        assert_eq!(orthonormalise(&mut left, 2, &mut [0.0; 4]), Ok(()));
        assert_eq!(left[2].to_bits(), 0);
    }

    #[test]
    fn leftover_entries_stay() {
        let mut directions = [0.0, 4.0, 9.0];
        let mut norms = [UNTOUCHED; 2];
        assert_eq!(orthonormalise(&mut directions, 2, &mut norms), Ok(()));
        assert_eq!(directions, [0.0, 1.0, 9.0]);
    }

    #[test]
    fn tests_7_and_13() {
        let answer = orthonormalise(&mut [1.0], 0, &mut []);
        assert_eq!(answer, Err(Refusal::of(7)));
        let answer = orthonormalise(&mut [1.0], 1, &mut [0.0]);
        assert_eq!(answer, Err(Refusal::of(13)));
        assert_eq!(orthonormalise(&mut [1.0], 2, &mut []), Ok(()));
    }

    #[test]
    fn the_smallest_nonzero_squared_length_is_no_collapse() {
        let two_to_minus_537 = f64::from_bits((1023 - 537) << 52);
        let mut norms = [0.0; 2];
        let answer = orthonormalise(&mut [two_to_minus_537], 1, &mut norms);
        assert_eq!(answer, Ok(()));
        assert_eq!(norms[1], f64::from_bits(1));
        let answer = orthonormalise(&mut [two_to_minus_537 / 2.0], 1, &mut norms);
        assert_eq!(answer, Err(Refusal::at(14, 0)));
    }
}
