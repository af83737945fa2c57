//! Patterns of floats and generator states for the leaves.

use super::seeds::state_before;
use crate::random::Random;

const FRACTION_BITS: u32 = 52;
const FRACTION: u64 = (1 << FRACTION_BITS) - 1;

/// Fractions at which a root or a logarithm might turn: the ends, the middle, the bound of the
/// logarithm's high word with its neighbours, the root of 2.
const FRACTIONS: [u64; 19] = [
    0,
    1,
    2,
    3,
    0x5_5555_5555_5555,
    0x6_a09d_ffff_ffff,
    0x6_a09e_0000_0000,
    0x6_a09e_0000_0001,
    0x6_a09e_667f_3bcc,
    0x6_a09e_667f_3bcd,
    0x6_a09e_667f_3bce,
    0x6_a09e_ffff_ffff,
    0x6_a09f_0000_0000,
    0x7_ffff_ffff_ffff,
    0x8_0000_0000_0000,
    0x8_0000_0000_0001,
    0xa_aaaa_aaaa_aaaa,
    FRACTION - 1,
    FRACTION,
];

/// Arguments, found by search, at which the last hexadecimal digit of one of the logarithm's
/// constants decides the answer: for hi, lo and L1 to L5 every other digit shows in one of them.
/// For L6 and L7 some thousand million arguments were tried and none was found.
pub const DECIDING: [u64; 12] = [
    0x4000_0000_6ab6_2523,
    0x4000_0000_c2f7_0bcd,
    0x3fe8_b8fa_8af1_ff0f,
    0x3ff6_0fe4_933a_49c3,
    0x3ff6_6ee9_f5ca_665a,
    0x3fe6_cb61_74d5_2608,
    0x3fe6_bad1_cd9f_bf85,
    0x3fe7_1813_84e4_3da9,
    0x3fe6_af76_adbf_1119,
    0x3fe6_b71b_648a_af3f,
    0x3ff6_8dbe_4564_0dba,
    0x3ff6_8914_7ae6_687e,
];

/// Arguments next to the bound of the logarithm's high word, found by search, for which the
/// reduction on the other side of the bound rounds to another answer. Most arguments there have
/// the same answer on both sides.
pub const AT_BOUND: [u64; 8] = [
    0x3fe6_a09d_efad_64f8,
    0x3fe6_a09d_1b26_c62d,
    0x3fe6_a09e_f554_f503,
    0x3fe6_a09e_860c_1fb0,
    0x3ff6_a09d_73a3_97e1,
    0x3ff6_a09d_1cca_c1c3,
    0x3ff6_a09e_4e2a_a10f,
    0x3ff6_a09e_e9b1_a160,
];

/// Special fractions in every exponent with either sign (zeros, subnormals, infinities and NaNs
/// of both kinds among them), subnormal powers of two, the neighbours of 1, `DECIDING` and
/// `AT_BOUND`.
pub fn special_floats() -> Vec<f64> {
    let mut patterns = Vec::new();
    for sign in [0, 1 << 63] {
        for exponent in 0..=0x7ff_u64 {
            let with = |fraction: &u64| sign | exponent << FRACTION_BITS | fraction;
            patterns.extend(FRACTIONS.iter().map(with));
        }
        for bit in 0..FRACTION_BITS {
            let power = sign | 1 << bit;
            patterns.extend([power - 1, power, power + 1]);
        }
        let one = sign | 1.0_f64.to_bits();
        patterns.extend(one - 64..=one + 64);
    }
    patterns.extend(DECIDING);
    patterns.extend(AT_BOUND);
    patterns.into_iter().map(f64::from_bits).collect()
}

/// A random float of one of several families.
pub fn random_float(random: &mut Random) -> f64 {
    match random.below(8) {
        0 => near(random, exact_square),
        1 => near(random, middle_square),
        2 => near_logarithm_bound(random),
        3 => 1.0 + random.power(-17.0, 0.0),
        4 => f64::from_bits(random.bits() >> (12 + random.below(52))),
        5 => random.between(0.0, 4.0),
        _ => f64::from_bits(random.bits()),
    }
}

/// A float of `family`, or one up to two patterns away.
fn near(random: &mut Random, family: impl Fn(&mut Random) -> f64) -> f64 {
    let bits = family(random).to_bits();
    f64::from_bits(bits.wrapping_add(random.below(5)).wrapping_sub(2))
}

/// The square of a whole number, times a power of four.
fn exact_square(random: &mut Random) -> f64 {
    let root = random.within(1, (1 << 26) - 1) as f64;
    let exponent = random.within(0, 900) as i32 - 500;
    root * root * (2.0 * f64::from(exponent)).exp2()
}

/// The square of a middle between two floats, rounded, times a power of four: its root is as
/// near to a tie as a root can be.
fn middle_square(random: &mut Random) -> f64 {
    let middle = u128::from((1 << 53) | (random.bits() >> 11) | 1);
    let square = middle * middle;
    // 107 or 108 bits, cut to the 53 of a float; `near` covers the rounding.
    let cut = 128 - square.leading_zeros() - 53;
    let exponent = random.within(0, 900) as i32 - 500;
    (square >> cut) as f64 * (f64::from(cut as i32) + 2.0 * f64::from(exponent)).exp2()
}

/// A positive normal float whose high word is within two of the logarithm's bound. Half of them
/// lie next to 1, where the side of the bound shows most often.
fn near_logarithm_bound(random: &mut Random) -> f64 {
    let exponent = if random.one_in(2) {
        random.within(0x3fd, 0x400)
    } else {
        random.within(1, 0x7fe)
    };
    let high = (exponent << 20 | 0x6_a09e) + random.below(5) - 2;
    f64::from_bits(high << 32 | random.bits() >> 32)
}

/// States at the ends, single bits, states whose next is special, and those whose output draws
/// -1, 0 and 1 - 2^-52 or a neighbour of these.
pub fn special_states() -> Vec<u64> {
    let gamma = 0x9e37_79b9_7f4a_7c15_u64;
    let mut states = vec![0, 1, u64::MAX, gamma, gamma.wrapping_neg(), !gamma];
    for bit in 0..64 {
        let power = 1_u64 << bit;
        states.extend([power, !power, power.wrapping_sub(gamma)]);
    }
    for n in [
        0,
        1,
        (1 << 52) - 1,
        1 << 52,
        (1 << 52) + 1,
        (1 << 53) - 2,
        (1 << 53) - 1,
    ] {
        for low in [0, 1, 0x400, 0x7ff] {
            states.push(state_before(n << 11 | low));
        }
    }
    states
}

#[cfg(test)]
mod tests {
    use super::*;

    #[test]
    fn special_floats_have_every_class() {
        let floats = special_floats();
        let has = |class: fn(&f64) -> bool| floats.iter().any(class);
        assert!(has(|x| x.to_bits() == (-0.0_f64).to_bits()));
        assert!(has(|x| x.is_subnormal()));
        assert!(has(|x| *x == f64::MAX) && has(|x| *x == f64::MIN_POSITIVE));
        assert!(has(|x| *x == f64::INFINITY) && has(|x| *x == f64::NEG_INFINITY));
        const QUIET: u64 = 1 << 51;
        assert!(has(|x| x.is_nan() && x.to_bits() & QUIET != 0));
        assert!(has(|x| x.is_nan() && x.to_bits() & QUIET == 0));
    }

    #[test]
    fn the_last_digits_decide() {
        for which in 0..7 {
            let digit = model::LOGARITHM_CONSTANTS[which] % 16;
            for other in (0..16).filter(|other| *other != digit) {
                let mut constants = model::LOGARITHM_CONSTANTS;
                constants[which] = constants[which] - digit + other;
                let shows = |bits: &u64| {
                    let x = f64::from_bits(*bits);
                    model::logarithm(x) != model::logarithm_with(x, &constants)
                };
                assert!(
                    DECIDING.iter().any(shows),
                    "constant {which}, digit {other:x}"
                );
            }
        }
    }

    #[test]
    fn the_side_of_the_bound_decides() {
        let constants = &model::LOGARITHM_CONSTANTS;
        for x in AT_BOUND.map(f64::from_bits) {
            // x is m * 2^k with m from 1 to 2, and with m from 1/2 to 1.
            let k = if x < 1.0 { -1.0 } else { 0.0 };
            let m = if x < 1.0 { 2.0 * x } else { x };
            let one = model::logarithm_of_parts(m, k, constants);
            let other = model::logarithm_of_parts(m / 2.0, k + 1.0, constants);
            assert_ne!(one.to_bits(), other.to_bits(), "{x}");
            let log = model::logarithm(x);
            assert!(log == Some(one) || log == Some(other), "{x}");
        }
    }

    #[test]
    fn squares_are_what_they_say() {
        let mut random = Random::seeded(3);
        for _ in 0..1000 {
            let x = exact_square(&mut random);
            assert!(x.is_normal());
            assert_eq!(x.sqrt() * x.sqrt(), x);
            assert!(middle_square(&mut random).is_normal());
        }
    }
}
