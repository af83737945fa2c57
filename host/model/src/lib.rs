//! Document 01, with document 02's requests a (rings), b (the place of refusal 5), c (states kept
//! under a number), d (sums from −0.0), f (runs side by side) and g (steps of warm-up windows), as
//! plain Rust, written from the documents and not from the source.
//!
//! It answers what the source has no behaviour for (refusals 5, 8, 9, 13, 21, 23 to 29, the bound of
//! 16 in 19, faint counts, the rows of a refused run, turns, other steps in the warm-up) and is a
//! second opinion on the rest. It favours plainness over speed.

mod arithmetic;
mod dispatcher;
mod orthonormalise;
mod rates;
mod run;
mod step;
mod store;
mod system;

pub use arithmetic::{
    logarithm, logarithm_of_parts, logarithm_with, splitmix64, square_root, symmetric_unit,
    LOGARITHM_CONSTANTS,
};
pub use dispatcher::{Dispatcher, Stage, Turn};
pub use orthonormalise::{orthonormalise, orthonormalise_from, SUM_START};
pub use rates::{entropy, kaplan_yorke_dimension, spectrum_program};
pub use run::{build_config, estimate, first_count_over, validate, Estimate, Input, Outputs};
pub use step::step;
pub use store::Store;

use input::Refusal;

/// The first index of an entry that is not finite.
fn first_not_finite(values: &[f64]) -> Option<u64> {
    let at = values.iter().position(|x| !x.is_finite())?;
    Some(at as u64)
}

/// `Err` with `refusal` where `fails` holds.
fn refuse_if(fails: bool, refusal: Refusal) -> Result<(), Refusal> {
    if fails {
        Err(refusal)
    } else {
        Ok(())
    }
}
