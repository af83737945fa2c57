//! Root, logarithm and generator.

const FRACTION_BITS: u32 = 52;
const FRACTION: u64 = (1 << FRACTION_BITS) - 1;

/// The largest whole number whose square is at most `n`, for `n` below 2^126.
fn whole_root(n: u128) -> u128 {
    let mut root = 0;
    for bit in (0..63).rev() {
        let candidate = root | (1_u128 << bit);
        if candidate * candidate <= n {
            root = candidate;
        }
    }
    root
}

/// A positive finite float as `m` and `e` with value m * 2^e.
fn whole_and_exponent(x: f64) -> (u64, i64) {
    let bits = x.to_bits();
    match (bits >> FRACTION_BITS) as i64 {
        0 => (bits, -1074),
        field => ((bits & FRACTION) | (1 << FRACTION_BITS), field - 1075),
    }
}

/// IEEE 754 squareRoot, to nearest, by whole numbers.
pub fn square_root(x: f64) -> f64 {
    if x.is_nan() || x < 0.0 {
        return f64::NAN;
    }
    if x == 0.0 || x == f64::INFINITY {
        return x;
    }
    let (m, e) = whole_and_exponent(x);
    // Shifted to 107 or 108 bits with an even exponent, so that its whole root has 54 bits: one
    // more than a float holds.
    let mut shift = 43 + i64::from(m.leading_zeros());
    if (e - shift) % 2 != 0 {
        shift += 1;
    }
    let wide = u128::from(m) << shift;
    let root = whole_root(wide);
    let exact = root * root == wide;
    // Ties go to the even one; a root with a remainder above the half is above the tie.
    let half = root & 1 == 1;
    let mut kept = (root >> 1) as u64;
    if half && (!exact || kept & 1 == 1) {
        kept += 1;
    }
    let exponent = (e - shift) / 2 + 1 + 52;
    // A carry out of the fraction moves the exponent on, which is the right answer.
    f64::from_bits((((exponent + 1023) as u64) << FRACTION_BITS) + (kept - (1 << FRACTION_BITS)))
}

/// hi, lo, L1 to L7 of document 01.
pub const LOGARITHM_CONSTANTS: [u64; 9] = [
    0x3fe62e42fee00000,
    0x3dea39ef35793c76,
    0x3fe5555555555593,
    0x3fd999999997fa04,
    0x3fd2492494229359,
    0x3fcc71c51d8e78af,
    0x3fc7466496cb03de,
    0x3fc39a09d078c69f,
    0x3fc2f112df3e5244,
];

/// Document 01's logarithm; `None` is refusal 24.
pub fn logarithm(z: f64) -> Option<f64> {
    logarithm_with(z, &LOGARITHM_CONSTANTS)
}

/// The logarithm with other constants, to find arguments on which a constant's last digit shows.
pub fn logarithm_with(z: f64, constants: &[u64; 9]) -> Option<f64> {
    if !z.is_normal() || z < 0.0 {
        return None;
    }
    let (m, k) = reduced(z);
    Some(logarithm_of_parts(m, k, constants))
}

/// The listed steps for z = m * 2^k.
pub fn logarithm_of_parts(m: f64, k: f64, constants: &[u64; 9]) -> f64 {
    let [hi, lo, l1, l2, l3, l4, l5, l6, l7] = constants.map(f64::from_bits);
    let f = m - 1.0;
    let q = (0.5 * f) * f;
    let s = f / (2.0 + f);
    let z2 = s * s;
    let w = z2 * z2;
    let t1 = w * (l2 + w * (l4 + w * l6));
    let t2 = z2 * (l1 + w * (l3 + w * (l5 + w * l7)));
    let r = t2 + t1;
    (((s * (q + r) + k * lo) - q) + f) + k * hi
}

/// The m and the k of z = m * 2^k, with m's high word from 3fe6a09e up to below 3ff6a09e.
fn reduced(z: f64) -> (f64, f64) {
    let bits = z.to_bits();
    let exponent = (bits >> FRACTION_BITS) as i32 - 1023;
    let from_one = f64::from_bits((bits & FRACTION) | (1023 << FRACTION_BITS));
    if from_one.to_bits() >> 32 < 0x3ff6a09e {
        (from_one, f64::from(exponent))
    } else {
        (from_one / 2.0, f64::from(exponent + 1))
    }
}

/// One turn of splitmix64: the next state and its output.
pub fn splitmix64(state: u64) -> (u64, u64) {
    let times = |a: u64, b: u64| (u128::from(a) * u128::from(b) % (1 << 64)) as u64;
    let next = ((u128::from(state) + 0x9e3779b97f4a7c15) % (1 << 64)) as u64;
    let v = times(next ^ (next >> 30), 0xbf58476d1ce4e5b9);
    let v = times(v ^ (v >> 27), 0x94d049bb133111eb);
    (next, v ^ (v >> 31))
}

/// The draw of an output: (n - 2^52) / 2^52 with n its top 53 bits. Both operations are exact.
pub fn symmetric_unit(output: u64) -> f64 {
    let n = (output >> 11) as i64;
    (n - (1 << 52)) as f64 / (1_u64 << 52) as f64
}

#[cfg(test)]
mod tests {
    use super::*;

    #[test]
    fn marked_roots() {
        assert_eq!(square_root(4.0), 2.0);
        assert_eq!(square_root(2.0).to_bits(), 0x3ff6a09e667f3bcd);
        let smallest = f64::from_bits(1);
        let two_to_minus_537 = f64::from_bits((1023 - 537) << FRACTION_BITS);
        assert_eq!(square_root(smallest), two_to_minus_537);
    }

    #[test]
    fn roots_of_special_values() {
        assert!(square_root(f64::NAN).is_nan());
        assert!(square_root(-1.0).is_nan());
        assert!(square_root(f64::NEG_INFINITY).is_nan());
        assert_eq!(square_root(-0.0).to_bits(), (-0.0_f64).to_bits());
        assert_eq!(square_root(0.0).to_bits(), 0);
        assert_eq!(square_root(f64::INFINITY), f64::INFINITY);
    }

    #[test]
    fn roots_equal_the_hardware() {
        let mut state = 1;
        for _ in 0..20_000 {
            let (next, output) = splitmix64(state);
            state = next;
            let x = f64::from_bits(output & !(1 << 63));
            if x.is_finite() {
                assert_eq!(square_root(x).to_bits(), x.sqrt().to_bits());
            }
        }
    }

    #[test]
    fn marked_logarithms() {
        assert_eq!(logarithm(1.0).map(f64::to_bits), Some(0));
        assert_eq!(logarithm(2.0).map(f64::to_bits), Some(0x3fe62e42fefa39ef));
    }

    #[test]
    fn refusal_24() {
        let largest_subnormal = f64::from_bits(FRACTION);
        for x in [0.0, -0.0, -1.0, largest_subnormal, f64::INFINITY, f64::NAN] {
            assert_eq!(logarithm(x), None, "{x}");
        }
        assert!(logarithm(f64::MIN_POSITIVE).is_some());
        assert!(logarithm(f64::MAX).is_some());
    }

    #[test]
    fn reduction_bounds() {
        for high in [0x3ff6a09e_u64, 0x3ff6a09d, 0x3fe6a09e, 0x3fe6a09d] {
            for low in [0, 0xffffffff] {
                let z = f64::from_bits(high << 32 | low);
                let (m, k) = reduced(z);
                assert!((0x3fe6a09e..0x3ff6a09e).contains(&(m.to_bits() >> 32)));
                assert_eq!(m * k.exp2(), z);
            }
        }
    }

    #[test]
    fn marked_draws() {
        assert_eq!(symmetric_unit(0), -1.0);
        assert_eq!(symmetric_unit(1 << 63).to_bits(), 0);
        assert_eq!(symmetric_unit(u64::MAX), 1.0 - (-52_f64).exp2());
    }

    #[test]
    fn published_outputs_of_splitmix64() {
        let published = [
            6457827717110365317,
            3203168211198807973,
            9817491932198370423,
            4593380528125082431,
            16408922859458223821,
        ];
        let mut state = 1234567;
        for expected in published {
            let (next, output) = splitmix64(state);
            assert_eq!(output, expected);
            state = next;
        }
    }
}
