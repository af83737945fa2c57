//! Random bytes as calls of every exported function. Each answer, every slice that was lent and
//! the borders around it are compared with the model of document 01.

mod dispatcher;
mod store;

use crate::bytes::{self, Bytes};
use crate::cases::{Build, Called, Draw, Log, Orth, Rates, Root, Run, Step, Validate};
use crate::circuit::{Circuit, KINDS, LINEAR, RING};
use crate::generate::{counts, seeds};
use input::{Settings, MAX_COUNT};
use lyapunov_sys::Arguments;
use std::collections::BTreeMap;
use std::time::{Duration, Instant};

/// Where fuzzing ends, and the seed of the bytes.
pub struct Limits {
    pub seconds: u64,
    pub calls: u64,
    pub seed: u64,
}

impl Default for Limits {
    fn default() -> Self {
        Self {
            seconds: 20,
            calls: u64::MAX,
            seed: 1,
        }
    }
}

/// How often each function answered with each number.
type Met = BTreeMap<(&'static str, u64), u64>;

/// Bytes of a call; a call that wants more reads zeros.
const MOST_BYTES: usize = 1_200;

/// Stops at the first call that differs.
pub fn fuzz(limits: &Limits) -> bool {
    let mut met = Met::new();
    let end = calls(limits, &mut met);
    println!("{:<28}{:>8}{:>12}", "function", "refusal", "calls");
    for ((function, number), count) in &met {
        println!("{function:<28}{number:>8}{count:>12}");
    }
    println!("{:<36}{:>12}", "all", met.values().sum::<u64>());
    if let Err(difference) = &end {
        println!("{difference}");
    }
    end.is_ok()
}

fn calls(limits: &Limits, met: &mut Met) -> Result<(), String> {
    let start = Instant::now();
    let most = Duration::from_secs(limits.seconds);
    let mut seed = limits.seed;
    for call in 0..limits.calls {
        // The clock is not asked at each of the short calls.
        if call % 64 == 0 && start.elapsed() >= most {
            break;
        }
        let (bytes, next) = bytes::random(seed, MOST_BYTES);
        seed = next;
        let (function, number) = one(&mut Bytes::of(&bytes));
        let number = number.map_err(|message| {
            let hexadecimal: String = bytes.iter().map(|byte| format!("{byte:02x}")).collect();
            format!("call {call}, {function}: {message}\nbytes {hexadecimal}")
        })?;
        *met.entry((function, number)).or_default() += 1;
    }
    Ok(())
}

/// The function that the bytes call, and the number of its refusal, or what differs.
fn one(bytes: &mut Bytes) -> (&'static str, Result<u64, String>) {
    let draw = |state| compared(&Draw { state, turns: 1 });
    match bytes.below(36) {
        0 => ("sqrt", compared(&Root(any(bytes)))),
        1 => ("ln", compared(&Log(any(bytes)))),
        2 => ("splitmix64_next", draw(bytes.number())),
        3 => ("splitmix64_value", draw(seeds::before(bytes.number()))),
        4 => {
            let state = seeds::state_before(bytes.number());
            ("splitmix64_symmetric_unit", draw(state))
        }
        5 => ("build_config", compared(&Build(settings(bytes)))),
        6 => ("kaplan_yorke_dimension", compared(&rates(bytes))),
        7 => ("kolmogorov_sinai_entropy", compared(&rates(bytes))),
        8 | 9 => ("modified_gram_schmidt", compared(&orth(bytes))),
        10..=12 => ("step", compared(&step(bytes))),
        13..=15 => ("estimate_spectrum_at", compared(&run(bytes, |run| run))),
        16 | 17 => ("estimate_spectrum", compared(&run(bytes, Run::at_zero))),
        18 | 19 => ("estimate_largest", compared(&run(bytes, Run::largest))),
        20 | 21 => ("validate", compared(&Validate(run(bytes, |run| run)))),
        22..=28 => store::one(bytes),
        _ => dispatcher::one(bytes),
    }
}

/// The number of the refusal, or how the library differs from the model.
fn compared<C: Called>(case: &C) -> Result<u64, String> {
    let model = case.model();
    match case.difference(&model, None) {
        Some(difference) => Err(difference),
        None => Ok(model.number()),
    }
}

/// A float that is as often a pattern as an everyday number.
fn any(bytes: &mut Bytes) -> f64 {
    if bytes.below(2) == 0 {
        bytes.float()
    } else {
        f64::from_bits(bytes.number())
    }
}

fn circuit(bytes: &mut Bytes) -> Circuit {
    let kind = match bytes.below(14) {
        0..=1 => 0,
        2..=3 => 1,
        4..=5 => 2,
        6..=8 => LINEAR,
        9..=11 => RING,
        12 => KINDS.len() as u64 + bytes.below(3) as u64,
        _ => bytes.number(),
    };
    let parameters = [bytes.float(), bytes.float(), bytes.float()];
    let (dimension, length) = size(bytes, kind);
    // Nothing moves with a matrix of zeros, so that long steps and long runs are met.
    let matrix = match bytes.below(6) {
        0 => vec![0.0; length],
        _ => bytes.floats(length),
    };
    Circuit::of_arguments(Arguments {
        kind,
        parameters,
        dimension,
        matrix: &matrix,
    })
}

/// A dimension and the length of a matrix. A ring does not read its matrix, which is short, so that
/// bytes are left for the state.
fn size(bytes: &mut Bytes, kind: u64) -> (usize, usize) {
    let dimension = match kind {
        RING if bytes.below(2) == 0 => 4 + bytes.below(13),
        _ => bytes.size(),
    };
    let length = match kind {
        RING => bytes.below(20),
        _ => bytes.length(dimension.saturating_mul(dimension)),
    };
    (dimension, length)
}

fn settings(bytes: &mut Bytes) -> Settings {
    let (top_k, step_size) = (bytes.size(), bytes.step_size());
    let mut settings = Settings::new(top_k, step_size, bytes.count(), bytes.count());
    settings.transient_windows = match bytes.below(40) {
        0 => MAX_COUNT + 1,
        other => other as u64 % 4,
    };
    settings.steps_per_transient_window = match bytes.below(40) {
        0 => Some(MAX_COUNT + 1),
        other @ 1..=9 => Some(other as u64 % 5),
        _ => None,
    };
    settings.seed = bytes.number();
    // Counts at the limit make a long run unless steps or windows are over: `estimate_largest` has
    // no warm-up windows.
    let combined = counts::combined(settings, bytes.byte().into(), u64::MAX);
    let is_refused = combined.steps_per_window.max(combined.windows) > MAX_COUNT;
    if is_refused && bytes.below(16) == 0 {
        return combined;
    }
    settings
}

fn rates(bytes: &mut Bytes) -> Rates {
    let wanted = match bytes.below(20) {
        0 => 256,
        1 => 257,
        other => other,
    };
    let length = bytes.length(wanted);
    Rates(bytes.floats(length))
}

fn orth(bytes: &mut Bytes) -> Orth {
    let dimension = bytes.size();
    let wanted = dimension.saturating_mul(1 + bytes.below(5));
    let length = bytes.length(wanted);
    let directions = bytes.floats(length);
    let count = length.checked_div(dimension).unwrap_or(0);
    Orth {
        dimension,
        directions,
        numbers: bytes.length(2 * count),
    }
}

fn step(bytes: &mut Bytes) -> Step {
    let circuit = circuit(bytes);
    let d = circuit.dimension();
    let (time, step_size, count) = (bytes.float(), bytes.step_size(), bytes.size());
    let length = bytes.length(d);
    let state = bytes.floats(length);
    let length = bytes.length(d.saturating_mul(count));
    Step {
        circuit,
        time,
        step_size,
        state,
        directions: bytes.floats(length),
        count,
    }
}

/// A run with the inputs of the function that `of` stands for.
fn run(bytes: &mut Bytes, of: fn(Run) -> Run) -> Run {
    let circuit = circuit(bytes);
    let d = circuit.dimension();
    let mut settings = settings(bytes);
    // Most runs have no more directions than fit.
    if bytes.below(4) < 3 {
        settings.top_k = 1 + bytes.below(d.clamp(1, 16));
    }
    let time = bytes.float();
    let length = bytes.length(d);
    let state = bytes.floats(length);
    let mut run = of(Run::fitting(circuit, settings, time, state));
    run.rows = bytes.length(run.settings.rows_length());
    run.exponents = bytes.length(run.settings.top_k);
    run.final_state = bytes.length(d);
    run
}

#[cfg(test)]
mod tests {
    use super::*;
    use std::collections::BTreeSet;

    /// The labels of the counts that are over in what `of` reads from random bytes.
    fn over(of: impl Fn(&mut Bytes) -> Settings) -> BTreeSet<&'static str> {
        let mut seed = 1;
        let labels = (0..20_000).map(|_| {
            let (bytes, next) = bytes::random(seed, MOST_BYTES);
            seed = next;
            counts::label(&of(&mut Bytes::of(&bytes)))
        });
        labels.collect()
    }

    #[test]
    fn every_combination_of_counts_is_called() {
        let all = BTreeSet::from(counts::OVER);
        assert_eq!(over(settings), all);
        assert_eq!(over(|bytes| run(bytes, |run| run).settings), all);
        // The run for the largest exponent has no warm-up windows.
        let largest = over(|bytes| run(bytes, Run::largest).settings);
        let no_warm_up = counts::OVER[..4].iter().copied();
        assert_eq!(largest, no_warm_up.collect());
    }
}
