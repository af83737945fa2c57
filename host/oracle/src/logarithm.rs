//! Document 01's logarithm, which stands in for the library's `ln`.

/// The logarithm of a positive normal float. The exponent and the fraction are moved apart by
/// one addition on the high word, unlike in the model, which compares.
pub fn document_logarithm(z: f64) -> f64 {
    const LOWEST: u64 = 0x3fe6a09e;
    const ONE: u64 = 0x3ff00000;
    let constant = f64::from_bits;
    let high = (z.to_bits() >> 32) + (ONE - LOWEST);
    let k = (high >> 20) as i32 - 0x3ff;
    let high_of_m = (high & 0xfffff) + LOWEST;
    let m = constant(high_of_m << 32 | z.to_bits() & 0xffffffff);

    let f = m - 1.0;
    let half_square = 0.5 * f * f;
    let s = f / (2.0 + f);
    let square = s * s;
    let w = square * square;
    let even = constant(0x3fcc71c51d8e78af) + w * constant(0x3fc39a09d078c69f);
    let even = w * (constant(0x3fd999999997fa04) + w * even);
    let odd = constant(0x3fc7466496cb03de) + w * constant(0x3fc2f112df3e5244);
    let odd = constant(0x3fd2492494229359) + w * odd;
    let odd = square * (constant(0x3fe5555555555593) + w * odd);
    let series = odd + even;
    let k = f64::from(k);
    let low_part = s * (half_square + series) + k * constant(0x3dea39ef35793c76);
    low_part - half_square + f + k * constant(0x3fe62e42fee00000)
}

#[cfg(test)]
mod tests {
    use super::document_logarithm;

    #[test]
    fn marked_logarithms() {
        assert_eq!(document_logarithm(1.0).to_bits(), 0);
        assert_eq!(document_logarithm(2.0).to_bits(), 0x3fe62e42fefa39ef);
    }

    #[test]
    fn it_is_close_to_the_library() {
        for x in [
            f64::MIN_POSITIVE,
            1e-100,
            0.7,
            0.71,
            1.4,
            1.42,
            3.0,
            f64::MAX,
        ] {
            let error = document_logarithm(x) - x.ln();
            assert!(error.abs() <= x.ln().abs() * 1e-15, "{x}");
        }
    }
}
