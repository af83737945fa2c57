//! Seeds whose draws are known: splitmix64 backwards.

use crate::random::Random;

const GAMMA: u64 = 0x9e37_79b9_7f4a_7c15;

/// The state whose turn from it gives `output`.
pub fn state_before(output: u64) -> u64 {
    let v = unshifted(output, 31).wrapping_mul(inverse(0x94d0_49bb_1331_11eb));
    let v = unshifted(v, 27).wrapping_mul(inverse(0xbf58_476d_1ce4_e5b9));
    before(unshifted(v, 30))
}

/// The state whose next is `state`.
pub fn before(state: u64) -> u64 {
    state.wrapping_sub(GAMMA)
}

/// The v for which v xor (v shifted right) is `value`.
fn unshifted(value: u64, shift: u32) -> u64 {
    let mut v = value;
    let mut shifted = value >> shift;
    while shifted != 0 {
        v ^= shifted;
        shifted >>= shift;
    }
    v
}

/// The inverse of an odd number modulo 2^64, by Newton's rule.
fn inverse(odd: u64) -> u64 {
    let mut x = odd;
    for _ in 0..6 {
        x = x.wrapping_mul(2_u64.wrapping_sub(odd.wrapping_mul(x)));
    }
    x
}

/// A seed whose draw at `index` is (n - 2^52) / 2^52.
pub fn seed_with_draw(random: &mut Random, index: u64, n: u64) -> u64 {
    let output = n << 11 | random.bits() >> 53;
    state_before(output).wrapping_sub(GAMMA.wrapping_mul(index))
}

/// A seed whose draw at `index` is 0.
pub fn seed_with_zero(random: &mut Random, index: u64) -> u64 {
    seed_with_draw(random, index, 1 << 52)
}

#[cfg(test)]
mod tests {
    use super::*;

    #[test]
    fn a_turn_forward_undoes_it() {
        let mut random = Random::seeded(1);
        for _ in 0..1000 {
            let output = random.bits();
            assert_eq!(model::splitmix64(state_before(output)).1, output);
        }
    }

    #[test]
    fn the_wanted_draw_comes() {
        let mut random = Random::seeded(2);
        for index in 0..5 {
            let mut state = seed_with_zero(&mut random, index);
            let mut draw = f64::NAN;
            for _ in 0..=index {
                let (next, output) = model::splitmix64(state);
                state = next;
                draw = model::symmetric_unit(output);
            }
            assert_eq!(draw.to_bits(), 0);
        }
    }
}
