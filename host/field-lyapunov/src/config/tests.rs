//! Refusal 5: its place and its text are those of the first count that is over.

use super::*;
use crate::{
    estimate_largest, estimate_spectrum, estimate_spectrum_at, LyapunovError, Rk4, System,
};
use input::Refusal;

const LIMIT: u64 = 16_777_216;

/// The place of the first count that is over, and its field of the settings.
type First = Option<(usize, &'static str)>;

const STEPS: First = Some((0, "steps_per_window"));
const WINDOWS: First = Some((1, "windows"));
const WARM_UP: First = Some((2, "transient_windows"));
const WARM_UP_STEPS: First = Some((3, "steps_per_transient_window"));

/// Whether steps, windows, warm-up and the steps of a warm-up window are over, and which of them is
/// the first.
const ROWS: [([bool; 4], First); 16] = [
    ([false, false, false, false], None),
    ([true, false, false, false], STEPS),
    ([false, true, false, false], WINDOWS),
    ([true, true, false, false], STEPS),
    ([false, false, true, false], WARM_UP),
    ([true, false, true, false], STEPS),
    ([false, true, true, false], WINDOWS),
    ([true, true, true, false], STEPS),
    ([false, false, false, true], WARM_UP_STEPS),
    ([true, false, false, true], STEPS),
    ([false, true, false, true], WINDOWS),
    ([true, true, false, true], STEPS),
    ([false, false, true, true], WARM_UP),
    ([true, false, true, true], STEPS),
    ([false, true, true, true], WINDOWS),
    ([true, true, true, true], STEPS),
];

/// The settings of each row, with counts at the limit or over it: by one, then by the most. Only
/// here can they be made without a test.
fn configs(rows: &[([bool; 4], First)]) -> Vec<(BenettinConfig, First)> {
    let mut all = vec![];
    for over in [LIMIT + 1, u64::MAX] {
        for (is_over, first) in rows {
            let [steps, windows, warm_up, warm_up_steps] =
                is_over.map(|is| if is { over } else { LIMIT });
            let mut settings = Settings::new(1, 1.0, steps, windows);
            settings.transient_windows = warm_up;
            let config = BenettinConfig { settings };
            let config = config.with_steps_per_transient_window(warm_up_steps as usize);
            all.push((config, *first));
        }
    }
    all
}

/// `later` is the refusal that comes next where no count is over.
fn assert_refused(error: LyapunovError, first: First, later: LyapunovError) {
    let Some((place, field)) = first else {
        assert_eq!(error, later);
        return;
    };
    assert_eq!((error.number(), error.place()), (5, place));
    assert_eq!(error.to_string(), format!("{field} is above 16777216"));
}

fn at_rest() -> System {
    System::VanDerPol { mu: 0.0 }
}

/// The builder has no warm-up windows.
#[test]
fn building() {
    for (config, first) in configs(&ROWS[..4]) {
        match BenettinConfig::new(1, 1.0, config.steps_per_window(), config.windows()) {
            Ok(built) => {
                assert_eq!(first, None);
                assert_eq!(built.with_transient_windows(LIMIT as usize), config);
            }
            Err(error) => {
                assert_ne!(first, None);
                assert_refused(error, first, error);
            }
        }
    }
}

/// No long run is made: where no count is over, the start is refused.
#[test]
fn runs() {
    let stepper = Rk4::new(at_rest());
    for (config, first) in configs(&ROWS) {
        let refused = estimate_spectrum_at(&stepper, f64::NAN, &[0.0; 2], &config).unwrap_err();
        assert_refused(refused.error(), first, LyapunovError::InvalidInitialTime);
        let refused = estimate_spectrum(&stepper, &[0.0, f64::NAN], &config).unwrap_err();
        let later = LyapunovError::NonFiniteInitialState(1);
        assert_refused(refused.error(), first, later);
    }
}

/// Such a run has no warm-up windows.
#[test]
fn runs_for_the_largest() {
    let (stepper, state) = (Rk4::new(at_rest()), [f64::NAN, 0.0]);
    for (config, first) in configs(&ROWS[..4]) {
        let (steps, windows) = (config.steps_per_window(), config.windows());
        let refused = estimate_largest(&stepper, &state, 1.0, steps, windows).unwrap_err();
        let later = LyapunovError::NonFiniteInitialState(0);
        assert_refused(refused.error(), first, later);
    }
}

/// Equal steps that are given are those that are left out.
#[test]
fn equal_steps_are_the_same_setting() {
    let config = BenettinConfig::new(1, 1.0, 7, 2).unwrap();
    assert_eq!(config.steps_per_transient_window(), 7);
    let other = config.clone().with_steps_per_transient_window(5);
    assert_ne!(other, config);
    assert_eq!(other.steps_per_transient_window(), 5);
    assert_eq!(other.steps_per_window(), 7);
    assert_eq!(other.with_steps_per_transient_window(7), config);
}

/// 29 is tested straight after 4 and before 5, and where there are no warm-up windows too.
#[test]
fn a_warm_up_window_without_steps() {
    let tested = |windows: u64, warm_up: u64| {
        let mut settings = Settings::new(1, 1.0, 3, windows);
        settings.transient_windows = warm_up;
        let config = BenettinConfig { settings }.with_steps_per_transient_window(0);
        let stepper = Rk4::new(at_rest());
        estimate_spectrum_at(&stepper, f64::NAN, &[0.0; 2], &config)
            .unwrap_err()
            .error()
    };
    for warm_up in [0, 1] {
        assert_eq!(
            tested(2, warm_up),
            LyapunovError::ZeroStepsPerTransientWindow
        );
    }
    assert_eq!(tested(0, 1), LyapunovError::ZeroWindows);
    assert_eq!(
        tested(LIMIT + 1, 1),
        LyapunovError::ZeroStepsPerTransientWindow
    );
}

#[test]
fn validation() {
    let (system, state) = (at_rest(), [0.0; 2]);
    let validate = |time: f64, config: &BenettinConfig| {
        answered(lyapunov_sys::validate(
            &system,
            time,
            &state,
            config.settings(),
        ))
    };
    for (config, first) in configs(&ROWS) {
        let error = validate(f64::NAN, &config).unwrap_err();
        assert_refused(error, first, LyapunovError::InvalidInitialTime);
        assert_eq!(validate(0.0, &config).is_ok(), first.is_none());
    }
}

/// The library's own run, which tests what its validation does.
#[test]
fn runs_of_the_library() {
    for (config, first) in configs(&ROWS) {
        let mut counts = [lyapunov_sys::UNWRITTEN; 19];
        let mut outputs = lyapunov_sys::Outputs {
            rows: &mut [],
            exponents: &mut [],
            final_state: &mut [],
            counts: &mut counts,
            times: &mut [0.0; 2],
        };
        let (system, settings) = (at_rest(), config.settings());
        let number = lyapunov_sys::estimate_spectrum_at(
            &system,
            f64::NAN,
            &[0.0; 2],
            settings,
            &mut outputs,
        );
        let error = answered(Refusal::at(number, counts[0])).unwrap_err();
        assert_refused(error, first, LyapunovError::InvalidInitialTime);
    }
}
