//! Lyapunov exponents of small circuits by Benettin's method, computed by the proved library.
//!
//! The names are those of the Rust crate of the same name, so that a program moves over by
//! changing its dependency, as far as these four points allow:
//!
//! - A system is a case of [`System`]; systems written by a user are not there.
//! - [`LyapunovError`] has a case for each numbered refusal.
//! - A refused run is a [`RefusedRun`], which holds the windows that were finished. `?` turns it
//!   into its [`LyapunovError`].
//! - A run reports steps and faint counts too: see [`SpectrumEstimate::faint_counts`].
//!
//! Beside these names, a [`Store`] keeps ends of runs under numbers, to go on from, and a
//! [`Dispatcher`] makes up to eight runs side by side, one window at a time.
//!
//! No function panics, whatever it is handed. All of them may be called from any thread.
//!
//! ```
//! use field_lyapunov::{estimate_spectrum, kaplan_yorke_dimension, BenettinConfig, Rk4, System};
//!
//! # fn main() -> Result<(), field_lyapunov::LyapunovError> {
//! let mut lorenz = Rk4::new(System::Lorenz { sigma: 10.0, rho: 28.0, beta: 8.0 / 3.0 });
//! let config = BenettinConfig::new(3, 0.01, 10, 2_000)?.with_transient_windows(100);
//! let estimate = estimate_spectrum(&mut lorenz, &[1.0, 1.0, 1.0], &config)?;
//!
//! assert!((estimate.exponents()[0] - 0.906).abs() < 0.1);
//! assert_eq!(estimate.faint_counts(), [0, 0, 0]);
//! assert!((kaplan_yorke_dimension(estimate.exponents())? - 2.06).abs() < 0.01);
//! # Ok(())
//! # }
//! ```

#![forbid(unsafe_code)]
#![warn(missing_docs)]

mod arithmetic;
mod config;
mod diagnostics;
mod dispatcher;
mod error;
mod estimate;
mod estimator;
mod gram_schmidt;
mod memory;
mod rk4;
mod store;

pub use arithmetic::{ln, sqrt, SplitMix64};
pub use config::BenettinConfig;
pub use diagnostics::{kaplan_yorke_dimension, kolmogorov_sinai_entropy};
pub use dispatcher::{Dispatcher, Turn};
pub use error::LyapunovError;
pub use estimate::{FiniteTimeEstimate, RefusedRun, Row, SpectrumEstimate};
pub use estimator::{estimate_largest, estimate_spectrum, estimate_spectrum_at};
pub use gram_schmidt::{modified_gram_schmidt, modified_gram_schmidt_into};
#[doc(inline)]
pub use input::{System, DEFAULT_SEED, MAX_DIMENSION};
pub use rk4::Rk4;
pub use store::Store;

/// The largest number of steps a measured window and a warm-up window, of measured windows and of
/// warm-up windows, each.
pub const MAX_COUNT: usize = input::MAX_COUNT as usize;

/// The most exponents of a dimension or an entropy.
pub const MAX_EXPONENTS: usize = 256;

/// An answer, or why there is none.
pub type Result<T> = core::result::Result<T, LyapunovError>;
