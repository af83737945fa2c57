//! Every refusal that can be met through this crate, by its number and its place.

use field_lyapunov::{
    estimate_largest, estimate_spectrum, estimate_spectrum_at, kaplan_yorke_dimension,
    kolmogorov_sinai_entropy, ln, modified_gram_schmidt, modified_gram_schmidt_into,
    BenettinConfig, Dispatcher, LyapunovError, RefusedRun, Rk4, Store, System, MAX_COUNT,
};

fn linear(dimension: usize, matrix: &[f64]) -> Rk4 {
    let matrix = matrix.to_vec();
    Rk4::new(System::Linear { dimension, matrix })
}

fn ring(cells: usize) -> Rk4 {
    let forcing = 8.0;
    Rk4::new(System::Lorenz96 { cells, forcing })
}

fn config(top_k: usize) -> BenettinConfig {
    BenettinConfig::new(top_k, 0.01, 2, 3).unwrap()
}

/// Why a run of three windows is refused.
fn run(stepper: &Rk4, state: &[f64], config: &BenettinConfig) -> LyapunovError {
    let refused = estimate_spectrum(stepper, state, config).unwrap_err();
    assert!(refused.finite_time_estimates().is_empty());
    assert_eq!(refused.steps(), 0);
    refused.error()
}

#[test]
fn settings() {
    let build = |k, h, steps, windows| BenettinConfig::new(k, h, steps, windows).unwrap_err();
    assert_eq!(build(0, f64::NAN, 0, 0), LyapunovError::ZeroTopK);
    for h in [f64::NAN, f64::INFINITY, 0.0, -0.0, -1.0] {
        assert_eq!(build(1, h, 0, 0), LyapunovError::InvalidStepSize);
    }
    assert_eq!(build(1, 1.0, 0, 0), LyapunovError::ZeroStepsPerWindow);
    assert_eq!(build(1, 1.0, 1, 0), LyapunovError::ZeroWindows);
    for over in [MAX_COUNT + 1, usize::MAX] {
        assert_eq!(build(1, 1.0, over, 1), LyapunovError::CountAboveLimit(0));
        assert_eq!(build(1, 1.0, 1, over), LyapunovError::CountAboveLimit(1));
    }
    assert!(BenettinConfig::new(usize::MAX, f64::from_bits(1), MAX_COUNT, MAX_COUNT).is_ok());
}

#[test]
fn warm_up_is_tested_by_the_run() {
    for over in [MAX_COUNT + 1, usize::MAX] {
        let config = config(1).with_transient_windows(over);
        let error = run(&linear(1, &[0.0]), &[1.0], &config);
        assert_eq!(error, LyapunovError::CountAboveLimit(2));
    }
}

/// With and without warm-up windows.
#[test]
fn warm_up_steps_are_tested_by_the_run() {
    let tested = |config: BenettinConfig, steps: usize| {
        let config = config.with_steps_per_transient_window(steps);
        run(&linear(1, &[0.0]), &[1.0], &config)
    };
    for warm_up in [0, 2] {
        let config = config(1).with_transient_windows(warm_up);
        let error = tested(config.clone(), 0);
        assert_eq!(error, LyapunovError::ZeroStepsPerTransientWindow);
        for over in [MAX_COUNT + 1, usize::MAX] {
            let error = tested(config.clone(), over);
            assert_eq!(error, LyapunovError::CountAboveLimit(3));
        }
    }
    let over = config(1).with_transient_windows(MAX_COUNT + 1);
    let error = tested(over.clone(), 0);
    assert_eq!(error, LyapunovError::ZeroStepsPerTransientWindow);
    let error = tested(over, MAX_COUNT + 1);
    assert_eq!(error, LyapunovError::CountAboveLimit(2));
}

#[test]
fn start_time() {
    for time in [f64::NAN, f64::INFINITY, f64::NEG_INFINITY] {
        let refused = estimate_spectrum_at(&linear(1, &[0.0]), time, &[1.0], &config(1));
        let error = LyapunovError::InvalidInitialTime;
        assert_eq!(refused, Err(RefusedRun::from(error)));
    }
}

#[test]
fn systems() {
    let state = [1.0, 1.0];
    let error = run(&linear(0, &[]), &state, &config(1));
    assert_eq!(error, LyapunovError::ZeroDimension);
    for dimension in [17, usize::MAX] {
        let error = run(&linear(dimension, &[]), &state, &config(1));
        assert_eq!(error, LyapunovError::DimensionAboveLimit);
    }
    for length in [0, 3, 5] {
        let error = run(&linear(2, &vec![0.0; length]), &state, &config(1));
        assert_eq!(error, LyapunovError::MatrixMismatch);
    }
}

#[test]
fn rings() {
    // The state fits none of them, and there are too many exponents for some.
    let answer = |cells| run(&ring(cells), &[f64::NAN; 5], &config(9));
    assert_eq!(answer(0), LyapunovError::ZeroDimension);
    for cells in 1..4 {
        assert_eq!(answer(cells), LyapunovError::TooFewCells);
    }
    for cells in [4, 16] {
        assert_eq!(answer(cells), LyapunovError::StateMismatch);
    }
    for cells in [17, usize::MAX] {
        assert_eq!(answer(cells), LyapunovError::DimensionAboveLimit);
    }
    let error = run(&ring(3), &[1.0; 3], &config(1));
    assert_eq!(error, LyapunovError::TooFewCells);
    let refused = estimate_spectrum_at(&ring(3), f64::NAN, &[1.0; 3], &config(1));
    assert_eq!(
        refused.unwrap_err().error(),
        LyapunovError::InvalidInitialTime
    );
    for cells in 4..=16 {
        let error = run(&ring(cells), &[1.0; 16][..cells], &config(cells + 1));
        assert_eq!(error, LyapunovError::InvalidExponentCount);
        let answer = estimate_spectrum(&ring(cells), &[1.0; 16][..cells], &config(cells));
        assert!(answer.is_ok());
    }
}

#[test]
fn states() {
    let lorenz = Rk4::new(System::Lorenz {
        sigma: 10.0,
        rho: 28.0,
        beta: 2.0,
    });
    for length in [0, 2, 4] {
        let error = run(&lorenz, &vec![1.0; length], &config(1));
        assert_eq!(error, LyapunovError::StateMismatch);
    }
    let error = run(&lorenz, &[1.0, f64::NAN, f64::INFINITY], &config(1));
    assert_eq!(error, LyapunovError::NonFiniteInitialState(1));
    for k in [4, usize::MAX] {
        let error = run(&lorenz, &[1.0; 3], &config(k));
        assert_eq!(error, LyapunovError::InvalidExponentCount);
    }
}

#[test]
fn an_infinite_window() {
    let twice = BenettinConfig::new(1, 1e308, 2, 1).unwrap();
    let error = run(&linear(1, &[0.0]), &[1.0], &twice);
    assert_eq!(error, LyapunovError::InvalidWindowDuration);
    let once = BenettinConfig::new(1, 1e308, 1, 1).unwrap();
    assert!(estimate_spectrum(&linear(1, &[0.0]), &[1.0], &once).is_ok());
}

#[test]
fn a_direction_that_collapses() {
    // 1 + x + x²/2 + x³/6 + x⁴/24 stays above 0, so many short steps have to sink the square.
    let config = BenettinConfig::new(1, 1.0, 2_000, 3).unwrap();
    let error = estimate_spectrum(&linear(1, &[-1.0]), &[0.0], &config).unwrap_err();
    assert_eq!(error.error(), LyapunovError::DegenerateTangent(0));
    assert_eq!(error.steps(), 2_000);
    assert!(error.finite_time_estimates().is_empty());
}

#[test]
fn a_state_and_a_direction_that_grow_too_far() {
    let config = BenettinConfig::new(1, 1.0, 10, 1_000).unwrap();
    let refused = estimate_spectrum(&linear(1, &[100.0]), &[1.0], &config).unwrap_err();
    assert_eq!(refused.error(), LyapunovError::NonFiniteState(0));
    assert_eq!(refused.finite_time_estimates().len(), 4);
    let row = &refused.finite_time_estimates()[3];
    assert_eq!(row.end_time(), 40.0);
    assert_eq!(row.local_exponents().len(), 1);
    assert_eq!(row.running_exponents().len(), 1);

    let config = BenettinConfig::new(1, 1.0, 100, 1_000).unwrap();
    let refused = estimate_spectrum(&linear(1, &[100.0]), &[0.0], &config).unwrap_err();
    assert_eq!(refused.error(), LyapunovError::NonFiniteTangent(0));
}

#[test]
fn a_time_that_grows_too_far() {
    let config = BenettinConfig::new(1, 8e307, 1, 5).unwrap();
    let refused = estimate_spectrum(&linear(1, &[0.0]), &[1.0], &config).unwrap_err();
    assert_eq!(refused.error(), LyapunovError::InvalidTime);
    assert_eq!(refused.finite_time_estimates().len(), 2);
    assert_eq!(refused.steps(), 2);
}

#[test]
fn steps() {
    let step = |stepper: &Rk4, time, state: &[f64], tangents: &[f64], count, h| {
        let (mut state, mut tangents) = (state.to_vec(), tangents.to_vec());
        stepper.step(time, &mut state, &mut tangents, count, h)
    };
    let one = linear(1, &[1.0]);
    let refused = |error: LyapunovError| Err(error);
    let answer = step(&linear(0, &[]), 0.0, &[], &[], 0, 1.0);
    assert_eq!(answer, refused(LyapunovError::ZeroDimension));
    let answer = step(&linear(17, &[]), 0.0, &[], &[], 0, 1.0);
    assert_eq!(answer, refused(LyapunovError::DimensionAboveLimit));
    let answer = step(&linear(1, &[]), 0.0, &[], &[], 0, 1.0);
    assert_eq!(answer, refused(LyapunovError::MatrixMismatch));
    let answer = step(&one, 0.0, &[], &[], 0, 1.0);
    assert_eq!(answer, refused(LyapunovError::StateMismatch));
    for (length, count) in [(0, 1), (1, 0), (17, 17), (1, usize::MAX)] {
        let answer = step(&one, 0.0, &[1.0], &vec![1.0; length], count, 1.0);
        assert_eq!(answer, refused(LyapunovError::TangentMismatch));
    }
    let answer = step(&one, f64::NAN, &[1.0], &[], 0, 0.0);
    assert_eq!(answer, refused(LyapunovError::InvalidInitialTime));
    let answer = step(&one, 0.0, &[1.0], &[], 0, 0.0);
    assert_eq!(answer, refused(LyapunovError::InvalidStepSize));
    let answer = step(&one, 0.0, &[f64::NAN], &[], 0, 1.0);
    assert_eq!(answer, refused(LyapunovError::NonFiniteState(0)));
    let answer = step(&one, 0.0, &[0.0], &[1.0, f64::INFINITY], 2, 1.0);
    assert_eq!(answer, refused(LyapunovError::NonFiniteTangent(1)));
    assert_eq!(step(&one, 0.0, &[1.0], &[1.0; 16], 16, 1.0), Ok(()));
}

#[test]
fn steps_of_a_ring() {
    let step = |cells: usize, state: usize, count: usize, time: f64, h: f64| {
        let (mut state, mut tangents) = (vec![1.0; state], vec![1.0; 4 * count.min(17)]);
        let answer = ring(cells).step(time, &mut state, &mut tangents, count, h);
        answer.map_err(|error| error.number())
    };
    assert_eq!(step(0, 1, 17, f64::NAN, 0.0), Err(7));
    for cells in [17, usize::MAX] {
        assert_eq!(step(cells, 1, 17, f64::NAN, 0.0), Err(8));
    }
    for cells in 1..4 {
        assert_eq!(step(cells, 5, 17, f64::NAN, 0.0), Err(25));
    }
    for cells in [4, 16] {
        assert_eq!(step(cells, 5, 17, f64::NAN, 0.0), Err(10));
    }
    assert_eq!(step(4, 4, 17, f64::NAN, 0.0), Err(19));
    assert_eq!(step(4, 4, 16, f64::NAN, 0.0), Err(6));
    assert_eq!(step(4, 4, 16, 0.0, 0.0), Err(2));
    assert_eq!(step(4, 4, 16, 0.0, 1.0), Ok(()));
}

#[test]
fn orthonormaliser() {
    let answer = modified_gram_schmidt(&mut [1.0], 0);
    assert_eq!(answer, Err(LyapunovError::ZeroDimension));
    let answer = modified_gram_schmidt_into(&mut [1.0], 1, &mut [0.0]);
    assert_eq!(answer, Err(LyapunovError::OutputTooShort(0)));
    let answer = modified_gram_schmidt(&mut [1.0, 0.0, 2.0, 0.0], 2);
    assert_eq!(answer, Err(LyapunovError::DegenerateTangent(1)));
    assert_eq!(modified_gram_schmidt(&mut [1.0], usize::MAX), Ok(vec![]));
    assert_eq!(modified_gram_schmidt(&mut [], 3), Ok(vec![]));
}

#[test]
fn rates() {
    for of in [kaplan_yorke_dimension, kolmogorov_sinai_entropy] {
        assert_eq!(of(&[]), Err(LyapunovError::NoExponents));
        assert_eq!(of(&[f64::NAN; 257]), Err(LyapunovError::TooManyExponents));
        let answer = of(&[0.0, f64::NEG_INFINITY]);
        assert_eq!(answer, Err(LyapunovError::NonFiniteExponent(1)));
        assert!(of(&[0.0; 256]).is_ok());
    }
}

#[test]
fn logarithm() {
    let subnormal = f64::MIN_POSITIVE / 2.0;
    for x in [0.0, -0.0, -1.0, subnormal, f64::INFINITY, f64::NAN] {
        assert_eq!(ln(x), Err(LyapunovError::LogarithmDomain));
    }
}

#[test]
fn the_largest_exponent_alone() {
    let refused = estimate_largest(&linear(1, &[1.0]), &[1.0], 0.1, 0, 5).unwrap_err();
    assert_eq!(refused.error(), LyapunovError::ZeroStepsPerWindow);
    assert_eq!(
        refused.to_string(),
        "a window has no steps (finished windows: 0, steps: 0)"
    );
    let estimate = estimate_largest(&linear(1, &[1.0]), &[1.0], 0.1, 1, 5).unwrap();
    let config = BenettinConfig::new(1, 0.1, 1, 5).unwrap();
    let same = estimate_spectrum_at(&linear(1, &[1.0]), 0.0, &[1.0], &config).unwrap();
    assert_eq!(estimate, same);
}

#[test]
fn kept_states() {
    let (rest, mut store) = (linear(1, &[0.0]), Store::new());
    for number in 1..=8 {
        store.keep(number, &rest, 0.0, &[1.0], &config(1)).unwrap();
    }
    // Both come before the tests of what is handed in.
    let full = store.keep(0, &rest, f64::NAN, &[], &config(9));
    assert_eq!(full, Err(RefusedRun::from(LyapunovError::StoreFull)));
    let unknown = store.go_on(0, &rest, f64::NAN, &[], &config(9), 0);
    assert_eq!(unknown, Err(RefusedRun::from(LyapunovError::NoSuchNumber)));
    assert_eq!(store.forget(0), Err(LyapunovError::NoSuchNumber));
    assert_eq!(
        store.numbers().collect::<Vec<_>>(),
        [1, 2, 3, 4, 5, 6, 7, 8]
    );
}

#[test]
fn side_by_side() {
    let (rest, mut dispatcher) = (linear(1, &[0.0]), Dispatcher::new());
    let mut hand_in = |stepper: &Rk4, time, state: &[f64], config: &BenettinConfig| {
        let name = dispatcher.hand_in(stepper, time, state, config);
        name.map_err(|error| (error.number(), error.place()))
    };
    assert_eq!(hand_in(&rest, f64::NAN, &[], &config(9)), Err((6, 0)));
    // 9 stands between 25 and 10, although turns test it.
    assert_eq!(hand_in(&ring(3), 0.0, &[], &config(1)), Err((25, 0)));
    assert_eq!(
        hand_in(&linear(2, &[0.0]), 0.0, &[], &config(9)),
        Err((9, 0))
    );
    assert_eq!(hand_in(&rest, 0.0, &[], &config(9)), Err((10, 0)));
    let endless = BenettinConfig::new(1, 1e308, 2, 1).unwrap();
    assert_eq!(hand_in(&rest, 0.0, &[1.0], &endless), Err((15, 0)));
    for name in 0..8 {
        assert_eq!(hand_in(&rest, 0.0, &[1.0], &config(1)), Ok(name));
    }
    assert_eq!(hand_in(&rest, f64::NAN, &[], &config(9)), Err((28, 0)));
}

#[test]
fn a_question_mark_answers_the_error() {
    fn asked() -> field_lyapunov::Result<Vec<f64>> {
        let estimate = estimate_spectrum(&linear(1, &[1.0]), &[], &config(1))?;
        Ok(estimate.exponents().to_vec())
    }
    assert_eq!(asked(), Err(LyapunovError::StateMismatch));
}
