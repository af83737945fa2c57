//! A small deterministic generator for inputs (Vigna's xorshift64*), unrelated to the one that is
//! compared.

use crate::circuit::Systems;

pub struct Random {
    state: u64,
    /// Which systems the inputs have.
    pub systems: Systems,
    /// Whether warm-up windows have steps of their own now and then: document 02's request g.
    pub warm_up_steps: bool,
}

impl Random {
    pub fn seeded(seed: u64) -> Self {
        // The state must not be 0; the odd factor spreads small seeds.
        Self {
            state: seed.wrapping_mul(0x2545_f491_4f6c_dd1d) | 1,
            systems: Systems::All,
            warm_up_steps: false,
        }
    }

    /// The same, for inputs with these systems.
    pub fn with(self, systems: Systems) -> Self {
        Self { systems, ..self }
    }

    /// The same, for inputs whose warm-up windows may have steps of their own.
    pub fn with_warm_up_steps(self) -> Self {
        Self {
            warm_up_steps: true,
            ..self
        }
    }

    pub fn bits(&mut self) -> u64 {
        self.state ^= self.state >> 12;
        self.state ^= self.state << 25;
        self.state ^= self.state >> 27;
        self.state.wrapping_mul(0x2545_f491_4f6c_dd1d)
    }

    /// A number below `n`, which is small.
    pub fn below(&mut self, n: u64) -> u64 {
        (self.bits() >> 16) % n
    }

    pub fn size_below(&mut self, n: usize) -> usize {
        self.below(n as u64) as usize
    }

    /// A number from `low` to `high`, both included.
    pub fn within(&mut self, low: u64, high: u64) -> u64 {
        low + self.below(high - low + 1)
    }

    pub fn one_in(&mut self, n: u64) -> bool {
        self.below(n) == 0
    }

    pub fn pick<T: Copy>(&mut self, items: &[T]) -> T {
        items[self.size_below(items.len())]
    }

    pub fn between(&mut self, low: f64, high: f64) -> f64 {
        let unit = (self.bits() >> 11) as f64 / (1_u64 << 53) as f64;
        low + (high - low) * unit
    }

    pub fn sign(&mut self) -> f64 {
        self.pick(&[1.0, -1.0])
    }

    /// Ten to a power from `low` to `high`, with a random sign.
    pub fn power(&mut self, low: f64, high: f64) -> f64 {
        self.sign() * 10_f64.powf(self.between(low, high))
    }

    /// A finite float of the size of everyday parameters; some are whole or zero.
    pub fn ordinary(&mut self) -> f64 {
        match self.below(8) {
            0 => self.within(0, 6) as f64 - 3.0,
            1 => self.pick(&[0.0, -0.0]),
            _ => self.between(-4.0, 4.0),
        }
    }

    /// A zero of either sign, or a one: what remains of a sum is often the sign of its zero.
    pub fn zero_or_one(&mut self) -> f64 {
        self.pick(&[0.0, -0.0, 0.0, -0.0, 1.0, -1.0])
    }

    /// A finite float with any exponent, subnormals included.
    pub fn finite(&mut self) -> f64 {
        loop {
            let x = f64::from_bits(self.bits());
            if x.is_finite() {
                return x;
            }
        }
    }

    /// A finite float at an edge of the format.
    pub fn finite_edge(&mut self) -> f64 {
        let magnitude = self.pick(&[
            0.0,
            f64::from_bits(1),
            f64::from_bits((1 << 52) - 1),
            f64::MIN_POSITIVE,
            f64::EPSILON,
            1.0,
            1e154,
            1e200,
            f64::MAX,
        ]);
        self.sign() * magnitude
    }

    pub fn not_finite(&mut self) -> f64 {
        self.pick(&[
            f64::NAN,
            f64::INFINITY,
            f64::NEG_INFINITY,
            f64::from_bits(0x7ff0_0000_0000_0001),
            f64::from_bits(0xfff8_0000_0000_0000),
        ])
    }

    /// Any float at all.
    pub fn any(&mut self) -> f64 {
        match self.below(10) {
            0 => self.not_finite(),
            1 | 2 => self.finite_edge(),
            3 => self.finite(),
            _ => self.ordinary(),
        }
    }

    pub fn list(&mut self, length: usize, mut entry: impl FnMut(&mut Self) -> f64) -> Vec<f64> {
        (0..length).map(|_| entry(self)).collect()
    }
}
