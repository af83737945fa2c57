//! The source's own modules, as `build.rs` wrote them, with probes for its private functions.
//! A probe stands in the module of what it calls, so that no file has to be changed for it.

// The oracle calls only a part of the source, and its style is not ours to judge.
#![allow(dead_code, clippy::all)]

mod error {
    include!(concat!(env!("OUT_DIR"), "/error.rs"));
}
mod system {
    include!(concat!(env!("OUT_DIR"), "/system.rs"));
}
mod diagnostics {
    include!(concat!(env!("OUT_DIR"), "/diagnostics.rs"));
}

macro_rules! estimator {
    ($file:literal) => {
        include!(concat!(env!("OUT_DIR"), $file));

        pub fn probe_modified_gram_schmidt(
            tangents: &mut [f64],
            dimension: usize,
        ) -> Result<Vec<f64>> {
            modified_gram_schmidt(tangents, dimension)
        }

        /// The state after one turn from `state`, with the output of that turn.
        pub fn probe_next_u64(state: u64) -> (u64, u64) {
            let mut generator = SplitMix64::new(state);
            let output = generator.next_u64();
            (generator.state, output)
        }

        pub fn probe_symmetric_unit(state: u64) -> f64 {
            SplitMix64::new(state).symmetric_unit()
        }
    };
}

mod estimator {
    estimator!("/estimator.rs");
}

/// The two files that have sums, with the library's own in place of the folds.
#[cfg(test)]
pub mod own_sums {
    mod diagnostics {
        include!(concat!(env!("OUT_DIR"), "/own_sums/diagnostics.rs"));
    }
    mod estimator {
        estimator!("/own_sums/estimator.rs");
    }

    pub use diagnostics::kolmogorov_sinai_entropy;
    pub use estimator::probe_modified_gram_schmidt;
}

pub use diagnostics::{kaplan_yorke_dimension, kolmogorov_sinai_entropy};
pub use error::LyapunovError;
pub use estimator::{
    estimate_largest, estimate_spectrum, estimate_spectrum_at, probe_modified_gram_schmidt,
    probe_next_u64, probe_symmetric_unit, BenettinConfig, SpectrumEstimate,
};
pub use system::{ContinuousSystem, Rk4, TangentStepper};

pub type Result<T> = core::result::Result<T, LyapunovError>;
