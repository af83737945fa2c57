//! Known spectra beside measured ones.

use field_lyapunov::{
    estimate_spectrum, BenettinConfig, LyapunovError, Rk4, SpectrumEstimate, System,
};
use std::f64::consts::TAU;
use std::fmt::Write as _;

/// A rate that is known, and how far off a measured one may be.
struct Known {
    rate: f64,
    tolerance: f64,
}

/// What the faint counts of a run must say.
#[derive(Clone, Copy, PartialEq, Eq)]
enum Faint {
    None,
    Some,
}

struct Case {
    name: &'static str,
    /// Where the rates are from.
    known_from: &'static str,
    system: System,
    state: Vec<f64>,
    /// Steps a window, windows, warm-up windows.
    counts: [usize; 3],
    known: Vec<Known>,
    /// The sum of all rates, where it is known on its own.
    sum: Option<Known>,
    faint: Faint,
}

/// The size of every step.
const STEP: f64 = 0.01;

/// The table, and whether every rate is within its tolerance. A run with faint windows is there to
/// show its warning: it has to warn, and its rates are not judged.
pub fn compared() -> Result<(String, bool), String> {
    let mut text = String::new();
    let mut all_near = true;
    for case in cases() {
        let estimate = measured(&case).map_err(|error| format!("{}: {error}", case.name))?;
        all_near &= write(&mut text, &case, &estimate);
    }
    let verdict = if all_near {
        "all as known"
    } else {
        "NOT all as known"
    };
    let _ = writeln!(text, "{verdict}");
    Ok((text, all_near))
}

fn measured(case: &Case) -> Result<SpectrumEstimate, LyapunovError> {
    let [steps, windows, warm_up] = case.counts;
    let config = BenettinConfig::new(case.known.len(), STEP, steps, windows)?;
    let stepper = Rk4::new(case.system.clone());
    let config = config.with_transient_windows(warm_up);
    Ok(estimate_spectrum(&stepper, &case.state, &config)?)
}

fn write(text: &mut String, case: &Case, estimate: &SpectrumEstimate) -> bool {
    let [steps, windows, warm_up] = case.counts;
    let _ = writeln!(text, "{}\n  known from {}", case.name, case.known_from);
    let _ = writeln!(
        text,
        "  step size {STEP}, steps a window {steps}, windows {windows} after {warm_up} of warm-up"
    );
    text.push_str("  direction       known    measured  difference  tolerance  faint windows\n");
    let warns = estimate.faint_counts().iter().any(|count| *count > 0);
    let judged = case.faint == Faint::None;
    let mut as_known = warns != judged;
    let rows = estimate.exponents().iter().zip(estimate.faint_counts());
    for (direction, ((rate, faint), known)) in rows.zip(&case.known).enumerate() {
        let near = line(
            text,
            &direction.to_string(),
            known,
            *rate,
            &faint.to_string(),
        );
        as_known &= near || !judged;
    }
    if let Some(sum) = &case.sum {
        let near = line(text, "sum", sum, estimate.exponents().iter().sum(), "");
        as_known &= near || !judged;
    }
    if warns {
        text.push_str("  warned: faint windows; shorter windows are needed\n");
    }
    text.push('\n');
    as_known
}

/// A line of the table; answers whether the rate is near.
fn line(text: &mut String, what: &str, known: &Known, rate: f64, faint: &str) -> bool {
    let (sought, tolerance) = (known.rate, known.tolerance);
    let difference = rate - sought;
    let near = difference.abs() <= tolerance;
    let verdict = if near { "near" } else { "OFF" };
    let _ = write!(text, "  {what:>9}  {sought:>10.4}  {rate:>10.4}");
    let _ = write!(text, "  {difference:>10.4}  {tolerance:>9.4}");
    let _ = writeln!(text, "  {faint:>13}  {verdict}");
    near
}

fn known(rates: impl IntoIterator<Item = f64>, tolerance: f64) -> Vec<Known> {
    let known = |rate| Known { rate, tolerance };
    rates.into_iter().map(known).collect()
}

fn cases() -> Vec<Case> {
    let mut cases = vec![lorenz(), rossler(), van_der_pol()];
    cases.extend(linear());
    cases.extend(oscillator());
    cases.extend(settled_rings());
    cases.push(chaotic_ring());
    cases
}

fn lorenz() -> Case {
    Case {
        name: "Lorenz, sigma 10, rho 28, beta 8/3",
        known_from: "the literature",
        system: System::Lorenz {
            sigma: 10.0,
            rho: 28.0,
            beta: 8.0 / 3.0,
        },
        state: vec![1.0; 3],
        counts: [10, 100_000, 1_000],
        known: known([0.9056, 0.0, -14.572], 0.005),
        sum: None,
        faint: Faint::None,
    }
}

fn rossler() -> Case {
    let [a, b, c] = [0.2, 0.2, 5.7];
    Case {
        name: "Rössler, a 0.2, b 0.2, c 5.7",
        system: System::Rossler { a, b, c },
        counts: [10, 200_000, 2_000],
        known: known([0.0714, 0.0, -5.394], 0.005),
        ..lorenz()
    }
}

fn van_der_pol() -> Case {
    Case {
        name: "van der Pol, mu 1, on its limit cycle",
        known_from: "a closed orbit, along which nothing grows or decays",
        system: System::VanDerPol { mu: 1.0 },
        state: vec![2.0, 0.0],
        counts: [10, 50_000, 1_000],
        known: known([0.0], 0.001),
        sum: None,
        faint: Faint::None,
    }
}

/// Systems whose rates are the real parts of the eigenvalues.
fn linear() -> [Case; 3] {
    let case = |name, dimension, matrix: &[f64], state: &[f64], known| Case {
        name,
        known_from: "the eigenvalues",
        system: System::Linear {
            dimension,
            matrix: matrix.to_vec(),
        },
        state: state.to_vec(),
        counts: [10, 2_000, 500],
        known,
        sum: None,
        faint: Faint::None,
    };
    [
        case(
            "linear, a triangle with -1, -2, -3 on its diagonal",
            3,
            &[-1.0, 4.0, 2.0, 0.0, -2.0, 3.0, 0.0, 0.0, -3.0],
            &[1.0, 1.0, 1.0],
            known([-1.0, -2.0, -3.0], 1e-4),
        ),
        case(
            "linear, a rotation",
            2,
            &[0.0, 1.0, -1.0, 0.0],
            &[1.0, 0.0],
            known([0.0, 0.0], 1e-4),
        ),
        case(
            "linear, growth 0.5 and decay -0.5",
            2,
            &[0.0, 0.5, 0.5, 0.0],
            &[0.0, 0.0],
            known([0.5, -0.5], 1e-4),
        ),
    ]
}

/// A damped oscillator with two fast decays. In long windows the fastest direction sinks, which is
/// counted, and from the third window on a rate appears that does not exist. The same with short
/// windows is right.
fn oscillator() -> [Case; 2] {
    let case = |name, counts, faint| Case {
        name,
        known_from: "the eigenvalues",
        system: System::Linear {
            dimension: 4,
            matrix: vec![
                -0.2, 1.0, 0.0, 0.0, //
                -1.0, -0.2, 0.0, 0.0, //
                0.0, 0.0, -7.5, 1.0, //
                0.0, 0.0, 0.0, -8.5,
            ],
        },
        state: vec![1.0, 0.0, 0.0, 0.0],
        counts,
        known: known([-0.2, -0.2, -7.5, -8.5], 0.01),
        sum: None,
        faint,
    };
    [
        case(
            "damped oscillator with two fast decays, long windows",
            [4_000, 20, 0],
            Faint::Some,
        ),
        case(
            "damped oscillator with two fast decays, short windows",
            [10, 8_000, 500],
            Faint::None,
        ),
    ]
}

/// A ring with a cell for each rate, of which all but one start at its forcing. Its divergence is
/// -1 for each cell, so the sum of the rates is known.
fn ring(name: &'static str, known_from: &'static str, forcing: f64, known: Vec<Known>) -> Case {
    let cells = known.len();
    let mut state = vec![forcing; cells];
    state[0] += 0.01;
    let (rate, tolerance) = (-(cells as f64), 1e-4);
    Case {
        name,
        known_from,
        system: System::Lorenz96 { cells, forcing },
        state,
        counts: [10, 2_000, 500],
        known,
        sum: Some(Known { rate, tolerance }),
        faint: Faint::None,
    }
}

/// Rings with a weak forcing F settle where all cells equal it. With n cells the eigenvalues there
/// have the real parts -1 + F (cos a - cos 2a), where a = 2 pi j / n.
fn settled_rings() -> [Case; 2] {
    let forcing = 0.5;
    let case = |name, cells: usize| {
        let rate = |j: usize| {
            let angle = TAU * j as f64 / cells as f64;
            -1.0 + forcing * (angle.cos() - (2.0 * angle).cos())
        };
        let mut rates: Vec<f64> = (0..cells).map(rate).collect();
        rates.sort_by(|a, b| b.total_cmp(a));
        let known_from = "the eigenvalues where it settles";
        ring(name, known_from, forcing, known(rates, 1e-4))
    };
    [
        case("Lorenz 96, 4 cells, forcing 0.5", 4),
        case("Lorenz 96, 8 cells, forcing 0.5", 8),
    ]
}

/// The rates are those of our own long run, which the model of this workspace made from the same
/// start, with the same steps a window and 1,000 windows of warm-up.
fn chaotic_ring() -> Case {
    let rates = [
        1.48372, 1.10263, 0.76099, 0.42922, 0.08910, 0.00002, -0.23834, -0.54527, -0.83674,
        -1.12387, -1.42664, -1.78819, -2.25836, -2.94359, -4.04871, -4.65594,
    ];
    let (name, known_from) = (
        "Lorenz 96, 16 cells, forcing 8",
        "our own run of 1,000,000 windows by the model",
    );
    Case {
        counts: [10, 40_000, 500],
        ..ring(name, known_from, 8.0, known(rates, 0.03))
    }
}

#[cfg(test)]
mod tests {
    use super::*;

    fn short() -> Case {
        Case {
            counts: [10, 100, 0],
            ..van_der_pol()
        }
    }

    fn is_as_known(case: &Case) -> bool {
        let estimate = measured(case).unwrap();
        write(&mut String::new(), case, &estimate)
    }

    #[test]
    fn a_rate_that_is_off_is_noticed() {
        let mut case = short();
        case.known = known([0.0], 10.0);
        assert!(is_as_known(&case));
        case.known = known([20.0], 10.0);
        assert!(!is_as_known(&case));
        case.known = known([f64::NAN], 10.0);
        assert!(!is_as_known(&case));
    }

    #[test]
    fn a_sum_that_is_off_is_noticed() {
        let mut case = short();
        case.known = known([0.0], 10.0);
        for (rate, near) in [(0.0, true), (20.0, false), (f64::NAN, false)] {
            let tolerance = 10.0;
            case.sum = Some(Known { rate, tolerance });
            assert_eq!(is_as_known(&case), near);
        }
    }

    #[test]
    fn a_warning_that_is_missing_is_noticed() {
        let mut case = short();
        case.faint = Faint::Some;
        assert!(!is_as_known(&case));
    }
}
