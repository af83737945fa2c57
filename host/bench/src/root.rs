//! The root beside the hardware's.

use crate::race::Race;
use std::hint::black_box;

const INPUTS: usize = 1_024;
const ROUNDS: usize = 100;

pub fn race() -> Race {
    let inputs = inputs();
    for x in &inputs {
        assert_eq!(lyapunov_sys::sqrt(*x).to_bits(), x.sqrt().to_bits());
    }
    let copy = inputs.clone();
    Race {
        name: "root".into(),
        target: None,
        calls: INPUTS * ROUNDS,
        library: Box::new(move || each(&inputs, lyapunov_sys::sqrt)),
        other: Some(Box::new(move || each(&copy, f64::sqrt))),
    }
}

/// Inputs that differ in exponent and in every digit.
fn inputs() -> Vec<f64> {
    let mut state = 1;
    let mut draw = || {
        state = lyapunov_sys::splitmix64_next(state);
        lyapunov_sys::splitmix64_symmetric_unit(lyapunov_sys::splitmix64_value(state))
    };
    (0..INPUTS)
        .map(|_| (1.5 + draw()) * (200.0 * draw()).exp2())
        .collect()
}

fn each(inputs: &[f64], root: impl Fn(f64) -> f64) {
    for _ in 0..ROUNDS {
        for x in inputs {
            black_box(root(black_box(*x)));
        }
    }
}
