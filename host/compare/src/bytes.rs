//! Bytes, and how numbers are read from them.

pub struct Bytes<'a> {
    rest: &'a [u8],
}

/// Random bytes, at most `most`, and the seed of the next ones.
pub fn random(seed: u64, most: usize) -> (Vec<u8>, u64) {
    let mut state = seed;
    let mut next = || {
        let (after, output) = model::splitmix64(state);
        state = after;
        output
    };
    let length = next() as usize % (most + 1);
    let mut bytes = Vec::with_capacity(length + 8);
    while bytes.len() < length {
        bytes.extend(next().to_le_bytes());
    }
    bytes.truncate(length);
    (bytes, state)
}

impl<'a> Bytes<'a> {
    pub fn of(bytes: &'a [u8]) -> Self {
        Self { rest: bytes }
    }

    /// The next byte, or 0 past the end.
    pub fn byte(&mut self) -> u8 {
        match self.rest.split_first() {
            Some((byte, rest)) => {
                self.rest = rest;
                *byte
            }
            None => 0,
        }
    }

    pub fn below(&mut self, n: usize) -> usize {
        usize::from(self.byte()) % n
    }

    pub fn number(&mut self) -> u64 {
        (0..8).fold(0, |bits, _| bits << 8 | u64::from(self.byte()))
    }

    /// Mostly small, now and then one that no memory has room for.
    pub fn size(&mut self) -> usize {
        match self.byte() {
            0..=9 => 0,
            10..=19 => 16,
            20..=29 => 17,
            30..=33 => usize::MAX,
            34..=37 => self.number() as usize,
            other => 1 + usize::from(other) % 5,
        }
    }

    /// A count of a run that keeps it short: small, or above the limit.
    pub fn count(&mut self) -> u64 {
        match self.byte() {
            0..=3 => 0,
            4..=6 => input::MAX_COUNT + 1,
            7..=8 => u64::MAX,
            other => 1 + u64::from(other) % 6,
        }
    }

    /// Mostly everyday numbers; also edges of the format and any pattern.
    pub fn float(&mut self) -> f64 {
        const EDGES: [f64; 12] = [
            0.0,
            -0.0,
            f64::NAN,
            f64::INFINITY,
            f64::NEG_INFINITY,
            f64::MAX,
            f64::MIN,
            f64::MIN_POSITIVE,
            5e-324,
            -5e-324,
            1e-160,
            1e160,
        ];
        match self.byte() {
            0..=5 => EDGES[self.below(EDGES.len())],
            6..=11 => f64::from_bits(self.number()),
            _ => f64::from(self.byte() as i8) / 16.0 + f64::from(self.byte()) / 4096.0,
        }
    }

    pub fn step_size(&mut self) -> f64 {
        match self.byte() {
            0..=15 => self.float(),
            // So long that the time or a window's duration passes the largest float.
            16..=23 => f64::from(1 + self.byte() % 64) * 2e306,
            _ => f64::from(1 + self.byte() % 64) / 128.0,
        }
    }

    /// Mostly `wanted`, and never more than memory that a call should have.
    pub fn length(&mut self, wanted: usize) -> usize {
        const MOST: usize = 600;
        match self.byte() {
            0..=7 => self.below(MOST),
            8..=15 => wanted.saturating_sub(1).min(MOST),
            16..=23 => wanted.saturating_add(1).min(MOST),
            _ => wanted.min(MOST),
        }
    }

    pub fn floats(&mut self, length: usize) -> Vec<f64> {
        (0..length).map(|_| self.float()).collect()
    }
}
