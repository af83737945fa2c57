//! The source's sums: where they begin, and that the library's own begin there too.

use crate::{files, Result};
use files::own_sums;

/// What an orthonormaliser answers, and what it leaves, by bits.
type Left = (Result<Vec<u64>>, Vec<u64>);

fn bits(floats: &[f64]) -> Vec<u64> {
    floats.iter().map(|x| x.to_bits()).collect()
}

fn left(
    orthonormalise: fn(&mut [f64], usize) -> Result<Vec<f64>>,
    tangents: &[f64],
    dimension: usize,
) -> Left {
    let mut tangents = tangents.to_vec();
    let answer = orthonormalise(&mut tangents, dimension);
    (answer.map(|logs| bits(&logs)), bits(&tangents))
}

/// A zero of either sign, a number so small that many of its products are zeros, or an ordinary one.
fn entry(output: u64) -> f64 {
    let small = f64::from_bits(1 + output % 9);
    let magnitude = [0.0, 0.0, 1.0, small, 0.25 * (1 + output % 7) as f64];
    let sign = [1.0, -1.0][(output >> 63) as usize];
    sign * magnitude[(output >> 32) as usize % magnitude.len()]
}

#[test]
fn folds_begin_at_negative_zero() {
    let entropy = files::kolmogorov_sinai_entropy(&[-1.0]);
    assert_eq!(entropy.map(f64::to_bits), Ok((-0.0_f64).to_bits()));
    let directions = [1.0, 0.0, -0.0, -1.0];
    let (_, tangents) = left(files::probe_modified_gram_schmidt, &directions, 2);
    assert_eq!(tangents, bits(&[1.0, 0.0, 0.0, -1.0]));
}

#[test]
fn the_library_sums_as_the_folds_do() {
    let (mut state, mut collapses, mut without_positive) = (1, 0, 0);
    for count in 0..200_000 {
        let (dimension, directions) = (1 + count % 4, 1 + count / 4 % 4);
        let mut next = || {
            let (after, output) = files::probe_next_u64(state);
            state = after;
            entry(output)
        };
        let floats: Vec<f64> = (0..dimension * directions).map(|_| next()).collect();
        let folded = left(files::probe_modified_gram_schmidt, &floats, dimension);
        let summed = left(own_sums::probe_modified_gram_schmidt, &floats, dimension);
        assert_eq!(folded, summed, "{floats:?}");
        collapses += u64::from(folded.0.is_err());
        let folded = files::kolmogorov_sinai_entropy(&floats).map(f64::to_bits);
        let summed = own_sums::kolmogorov_sinai_entropy(&floats).map(f64::to_bits);
        assert_eq!(folded, summed, "{floats:?}");
        without_positive += u64::from(folded == Ok((-0.0_f64).to_bits()));
    }
    for met in [collapses, without_positive] {
        assert!((10_000..190_000).contains(&met), "{met}");
    }
}
