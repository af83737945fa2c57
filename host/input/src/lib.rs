//! A system, settings and a refusal, as every package of the workspace takes them.
//!
//! Nothing is computed here, so that the model and the oracle share no computation with the
//! library.

#![warn(missing_docs)]

mod settings;
mod system;

pub use settings::Settings;
pub use system::System;

/// The largest dimension of a system, and the most directions of a step.
pub const MAX_DIMENSION: usize = 16;

/// The largest number of steps a window, of measured windows and of warm-up windows, each.
pub const MAX_COUNT: u64 = 16_777_216;

/// The seed of settings for which no other is set.
pub const DEFAULT_SEED: u64 = 0x4c59_4150_554e_4f56;

/// A refusal: its number and its place. As the answer of a call, the number 0 is none.
#[derive(Clone, Copy, Debug, PartialEq, Eq)]
pub struct Refusal {
    /// The number in document 01.
    pub number: u64,
    /// The index, direction, count or output that it points at; 0 where it points at none.
    pub place: u64,
}

impl Refusal {
    /// No refusal.
    pub const NONE: Self = Self::of(0);

    /// The refusal `number`, where no place is stated.
    #[must_use]
    pub const fn of(number: u64) -> Self {
        Self::at(number, 0)
    }

    /// The refusal `number` at `place`.
    #[must_use]
    pub const fn at(number: u64, place: u64) -> Self {
        Self { number, place }
    }
}
