//! Root, logarithm and generator.

use crate::error::answered;
use crate::Result;
use input::Refusal;

/// The square root of IEEE 754, rounded to nearest.
///
/// ```
/// assert_eq!(field_lyapunov::sqrt(4.0), 2.0);
/// assert!(field_lyapunov::sqrt(-1.0).is_nan());
/// ```
#[must_use]
pub fn sqrt(x: f64) -> f64 {
    lyapunov_sys::sqrt(x)
}

/// The natural logarithm that a run uses; refused by 24 unless `x` is positive, normal and finite.
///
/// ```
/// assert_eq!(field_lyapunov::ln(1.0), Ok(0.0));
/// assert!(field_lyapunov::ln(0.0).is_err());
/// ```
pub fn ln(x: f64) -> Result<f64> {
    let mut out = 0.0;
    let number = lyapunov_sys::ln(x, &mut out);
    answered(Refusal::of(number)).map(|()| out)
}

/// The generator that draws the directions of a run.
///
/// ```
/// let mut generator = field_lyapunov::SplitMix64::new(1234567);
/// assert_eq!(generator.next_u64(), 6457827717110365317);
/// let draw = generator.symmetric_unit();
/// assert!((-1.0..1.0).contains(&draw));
/// ```
#[derive(Clone, Debug, PartialEq, Eq)]
pub struct SplitMix64 {
    state: u64,
}

impl SplitMix64 {
    /// A generator that starts from `seed`.
    #[must_use]
    pub const fn new(seed: u64) -> Self {
        Self { state: seed }
    }

    /// The next output.
    pub fn next_u64(&mut self) -> u64 {
        self.state = lyapunov_sys::splitmix64_next(self.state);
        lyapunov_sys::splitmix64_value(self.state)
    }

    /// The next draw, at least -1 and below 1.
    pub fn symmetric_unit(&mut self) -> f64 {
        lyapunov_sys::splitmix64_symmetric_unit(self.next_u64())
    }
}
