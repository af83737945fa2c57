//! Dimension, entropy and the program that prints them.

use crate::first_not_finite;
use input::Refusal;

const MAX_RATES: usize = 256;
const MAX_BYTES: usize = 8 * MAX_RATES;

/// Tests 20, 21 and 22.
fn tests(rates: &[f64]) -> Result<(), Refusal> {
    if rates.is_empty() {
        return Err(Refusal::of(20));
    }
    if rates.len() > MAX_RATES {
        return Err(Refusal::of(21));
    }
    match first_not_finite(rates) {
        Some(index) => Err(Refusal::at(22, index)),
        None => Ok(()),
    }
}

/// A whole number for a float that is no NaN, in the order of `total_cmp`.
fn rank(x: f64) -> i64 {
    let magnitude = (x.to_bits() & !(1 << 63)) as i64;
    if x.is_sign_negative() {
        -1 - magnitude
    } else {
        magnitude
    }
}

/// A copy in falling order, by repeated selection of the largest.
fn downward(rates: &[f64]) -> Vec<f64> {
    let mut left = rates.to_vec();
    let mut ordered = Vec::with_capacity(left.len());
    while !left.is_empty() {
        let mut largest = 0;
        for i in 1..left.len() {
            if rank(left[i]) > rank(left[largest]) {
                largest = i;
            }
        }
        ordered.push(left.swap_remove(largest));
    }
    ordered
}

pub fn kaplan_yorke_dimension(rates: &[f64]) -> Result<f64, Refusal> {
    tests(rates)?;
    let mut sum = 0.0;
    for (index, rate) in downward(rates).into_iter().enumerate() {
        let next = sum + rate;
        if next < 0.0 {
            let whole = index as f64;
            return Ok(if index == 0 {
                0.0
            } else {
                whole + sum / rate.abs()
            });
        }
        sum = next;
    }
    Ok(rates.len() as f64)
}

/// The sum of the rates above 0, from −0.0 in the order given: document 02, d).
pub fn entropy(rates: &[f64]) -> Result<f64, Refusal> {
    tests(rates)?;
    let mut sum = -0.0;
    for rate in rates {
        if *rate > 0.0 {
            sum += rate;
        }
    }
    Ok(sum)
}

/// What the program `spectrum` prints for the bytes of its standard input.
pub fn spectrum_program(input: &[u8]) -> String {
    match program_answer(input) {
        Ok([dimension, entropy]) => format!("{dimension:016x}\n{entropy:016x}\n"),
        Err(refusal) => format!("refused {} {}\n", refusal.number, refusal.place),
    }
}

/// The program's tests are 21 by length, 23, 20 and 22.
fn program_answer(input: &[u8]) -> Result<[u64; 2], Refusal> {
    if input.len() > MAX_BYTES {
        return Err(Refusal::of(21));
    }
    if !input.len().is_multiple_of(8) {
        return Err(Refusal::of(23));
    }
    let rates: Vec<f64> = input.chunks(8).map(little_endian).collect();
    let dimension = kaplan_yorke_dimension(&rates)?;
    Ok([dimension.to_bits(), entropy(&rates)?.to_bits()])
}

fn little_endian(bytes: &[u8]) -> f64 {
    let fold = |bits, byte: &u8| bits << 8 | u64::from(*byte);
    f64::from_bits(bytes.iter().rev().fold(0, fold))
}

#[cfg(test)]
mod tests {
    use super::*;

    fn bytes(rates: &[f64]) -> Vec<u8> {
        rates.iter().flat_map(|x| x.to_le_bytes()).collect()
    }

    #[test]
    fn marked_dimensions() {
        assert_eq!(kaplan_yorke_dimension(&[1.0, 0.0, -2.0]), Ok(2.5));
        assert_eq!(kaplan_yorke_dimension(&[-2.0, 1.0, 0.0]), Ok(2.5));
        assert_eq!(kaplan_yorke_dimension(&[1.0, 2.0]), Ok(2.0));
        assert_eq!(kaplan_yorke_dimension(&[-1.0]), Ok(0.0));
    }

    #[test]
    fn marked_entropy() {
        assert_eq!(entropy(&[-1.0, 0.5, 0.25]), Ok(0.75));
    }

    #[test]
    fn without_a_positive_rate_the_entropy_is_negative_zero() {
        for rates in [&[-1.0][..], &[-1.0, -2.0], &[0.0], &[0.0, -0.0]] {
            assert_eq!(entropy(rates).map(f64::to_bits), Ok((-0.0_f64).to_bits()));
        }
        let printed = spectrum_program(&bytes(&[-1.0, -2.0]));
        assert_eq!(printed, "0000000000000000\n8000000000000000\n");
    }

    #[test]
    fn positive_zero_stands_above_negative_zero() {
        let ordered = downward(&[-0.0, -1.0, 0.0, 1.0]);
        let bits: Vec<u64> = ordered.iter().map(|x| x.to_bits()).collect();
        assert_eq!(bits, [1.0, 0.0, -0.0, -1.0_f64].map(f64::to_bits));
    }

    #[test]
    fn refusals() {
        assert_eq!(entropy(&[]), Err(Refusal::of(20)));
        assert_eq!(entropy(&[0.0; 256]), Ok(0.0));
        assert_eq!(kaplan_yorke_dimension(&[0.0; 257]), Err(Refusal::of(21)));
        let bad = [0.0, f64::NEG_INFINITY, f64::NAN];
        assert_eq!(kaplan_yorke_dimension(&bad), Err(Refusal::at(22, 1)));
    }

    #[test]
    fn the_program_of_the_document() {
        let printed = spectrum_program(&bytes(&[1.0, 0.0, -2.0]));
        assert_eq!(printed, "4004000000000000\n3ff0000000000000\n");
    }

    #[test]
    fn refusals_of_the_program() {
        assert_eq!(spectrum_program(&[]), "refused 20 0\n");
        assert_eq!(spectrum_program(&[0; 7]), "refused 23 0\n");
        assert_eq!(spectrum_program(&[0; 2049]), "refused 21 0\n");
        let bad = bytes(&[0.0, f64::NAN]);
        assert_eq!(spectrum_program(&bad), "refused 22 1\n");
    }
}
