//! What a store answers, and when it stays as it is.

use super::*;
use crate::{estimate_spectrum_at, LyapunovError, System, MAX_COUNT};

const START: [f64; 3] = [1.0, 1.0, 1.0];
const TIME: f64 = 0.5;

fn lorenz() -> Rk4 {
    Rk4::new(System::Lorenz {
        sigma: 10.0,
        rho: 28.0,
        beta: 2.5,
    })
}

fn config(windows: usize) -> BenettinConfig {
    let config = BenettinConfig::new(2, 0.01, 3, windows).unwrap();
    config.with_transient_windows(1).with_seed(7)
}

/// Keeps `windows` windows of the Lorenz system.
fn keep(store: &mut Store, number: u8, windows: usize) -> Result<SpectrumEstimate> {
    Ok(store.keep(number, &lorenz(), TIME, &START, &config(windows))?)
}

/// Goes on from it.
fn go_on(store: &Store, number: u8, windows: usize) -> Result<SpectrumEstimate> {
    Ok(store.go_on(number, &lorenz(), TIME, &START, &config(1), windows)?)
}

fn one_run(windows: usize) -> SpectrumEstimate {
    estimate_spectrum_at(&lorenz(), TIME, &START, &config(windows)).unwrap()
}

/// All of a store, floats by their bits.
fn content(store: &Store) -> (Vec<u64>, Vec<u64>, BTreeMap<u8, usize>) {
    let bits = store.memory.floats.iter().map(|x| x.to_bits());
    let (counts, windows) = (store.memory.counts.to_vec(), store.windows.clone());
    (bits.collect(), counts, windows)
}

fn eight() -> Store {
    let mut store = Store::new();
    for number in [3, 0, 255, 9, 100, 128, 1, 2] {
        keep(&mut store, number, 2).unwrap();
    }
    store
}

#[test]
fn a_keep_is_a_run_and_a_going_on_its_later_part() {
    let mut store = Store::new();
    assert_eq!(keep(&mut store, 9, 3).unwrap(), one_run(3));
    let before = content(&store);
    for windows in [1, 2, 5, 2] {
        let (later, mut whole) = (go_on(&store, 9, windows).unwrap(), one_run(3 + windows));
        assert_eq!(later.finished_windows(), 3 + windows);
        assert_eq!(later.finite_time_estimates()[0].window(), 3);
        whole.finite_time.drain(..3);
        assert_eq!(later, whole);
        assert_eq!(content(&store), before);
    }
}

#[test]
fn numbers_that_are_not_kept() {
    let mut store = eight();
    store.forget(100).unwrap();
    let before = content(&store);
    for number in [4, 100, 254] {
        // No windows at all would be refused by 4.
        let refused = go_on(&store, number, 0).unwrap_err();
        assert_eq!((refused.number(), refused.place()), (26, 0));
        assert_eq!(store.forget(number), Err(LyapunovError::NoSuchNumber));
    }
    assert_eq!(content(&store), before);
}

#[test]
fn eight_others() {
    let mut store = eight();
    let before = content(&store);
    // Warm-up over the limit would be refused by 5.
    let over = config(1).with_transient_windows(MAX_COUNT + 1);
    for config in [config(1), over.clone()] {
        let refused = store.keep(4, &lorenz(), TIME, &START, &config).unwrap_err();
        assert_eq!(refused, RefusedRun::from(LyapunovError::StoreFull));
        assert_eq!((refused.error().number(), refused.error().place()), (27, 0));
    }
    let refused = store.keep(9, &lorenz(), TIME, &START, &over).unwrap_err();
    assert_eq!(refused.error(), LyapunovError::CountAboveLimit(2));
    assert_eq!(content(&store), before);
    assert_eq!(keep(&mut store, 9, 4).unwrap(), one_run(4));
    assert_eq!(go_on(&store, 9, 1).unwrap().finished_windows(), 5);
    assert_eq!(go_on(&store, 2, 1).unwrap().finished_windows(), 3);
}

#[test]
fn a_forgotten_place_is_used_again() {
    let mut store = eight();
    for number in 10..60 {
        let oldest = store.numbers().next().unwrap();
        store.forget(oldest).unwrap();
        keep(&mut store, number, 1).unwrap();
        assert_eq!(store.numbers().count(), 8);
    }
}

#[test]
fn a_refused_keep_replaces_nothing() {
    let mut store = Store::new();
    keep(&mut store, 9, 2).unwrap();
    let before = content(&store);
    let refused = store.keep(9, &lorenz(), TIME, &START[..2], &config(1));
    let error = refused.unwrap_err().error();
    assert_eq!(error, LyapunovError::StateMismatch);
    let far = [1e200, 1e200, 1e200];
    let refused = store.keep(9, &lorenz(), TIME, &far, &config(1));
    assert_eq!(refused.unwrap_err().error().number(), 16);
    assert_eq!(content(&store), before);
    assert_eq!(go_on(&store, 9, 1).unwrap().finished_windows(), 3);
}

#[test]
fn counts_of_later_windows() {
    let mut store = Store::new();
    keep(&mut store, 0, 3).unwrap();
    let asked = |windows| go_on(&store, 0, windows).unwrap_err();
    assert_eq!(asked(0), LyapunovError::ZeroWindows);
    for windows in [MAX_COUNT - 2, MAX_COUNT, usize::MAX - 3, usize::MAX] {
        assert_eq!(asked(windows), LyapunovError::CountAboveLimit(1));
    }
}

/// The library's own call, since this crate lends outputs that fit.
#[test]
fn outputs_are_for_the_later_windows() {
    let mut store = Store::new();
    keep(&mut store, 0, 3).unwrap();
    let refused = |rows: usize, windows: usize| {
        let mut settings = *config(1).settings();
        settings.windows = windows as u64;
        let (mut rows, mut counts) = (vec![0.0; rows], [1; 19]);
        let mut outputs = lyapunov_sys::Outputs {
            rows: &mut rows,
            exponents: &mut [0.0; 2],
            final_state: &mut [0.0; 3],
            counts: &mut counts,
            times: &mut [0.0; 2],
        };
        let (memory, stepper) = (store.memory.seen(), lorenz());
        let system = stepper.system();
        let number = lyapunov_sys::go_on(memory, 0, system, TIME, &START, &settings, &mut outputs);
        Refusal::at(number, counts[0])
    };
    assert_eq!(refused(10, 2), Refusal::NONE);
    assert_eq!(refused(9, 2), Refusal::at(13, 0));
    // The rows of all windows that 5 allows can't be lent here.
    assert_eq!(refused(10, MAX_COUNT - 3), Refusal::at(13, 0));
    assert_eq!(refused(10, MAX_COUNT - 2), Refusal::at(5, 1));
    assert_eq!(refused(10, usize::MAX), Refusal::at(5, 1));
}

#[test]
fn a_refusal_in_a_later_window() {
    // Each window multiplies the state by about 5.4e121.
    let stepper = Rk4::new(System::Linear {
        dimension: 1,
        matrix: vec![1e30],
    });
    let config = BenettinConfig::new(1, 6.0, 1, 1).unwrap();
    let mut store = Store::new();
    store.keep(5, &stepper, 0.0, &[1.0], &config).unwrap();
    let refused = store.go_on(5, &stepper, 0.0, &[1.0], &config, 4);
    let refused = refused.unwrap_err();
    assert_eq!(refused.error(), LyapunovError::NonFiniteState(0));
    assert_eq!((refused.finished_windows(), refused.steps()), (2, 2));
    let [only] = refused.finite_time_estimates() else {
        panic!("one later window was finished: {refused:?}");
    };
    assert_eq!((only.window(), only.end_time()), (1, 12.0));
    let text = refused.to_string();
    assert!(text.ends_with("(finished windows: 2, steps: 2)"), "{text}");
}

/// What differs from the keep leads to some answer, and to no harm.
#[test]
fn a_foreign_continuation_ends() {
    let mut store = eight();
    let ring = Rk4::new(System::Lorenz96 {
        cells: 16,
        forcing: 8.0,
    });
    let wide = BenettinConfig::new(16, 0.01, 2, 1).unwrap();
    let before = content(&store);
    for windows in [1, 3] {
        let _ = store.go_on(3, &ring, 1e9, &[0.5; 16], &wide, windows);
        let _ = store.go_on(3, &lorenz(), 0.0, &[9.0; 3], &config(1), windows);
    }
    assert_eq!(content(&store), before);
    store.keep(3, &ring, 0.0, &[0.5; 16], &wide).unwrap();
    let _ = go_on(&store, 3, 2);
    let clone = store.clone();
    assert_eq!(content(&clone), content(&store));
}

#[test]
fn a_store_is_shown_by_its_numbers() {
    let mut store = Store::default();
    assert_eq!(format!("{store:?}"), "Store {}");
    keep(&mut store, 9, 3).unwrap();
    keep(&mut store, 2, 1).unwrap();
    assert_eq!(format!("{store:?}"), "Store {2: 1, 9: 3}");
    assert_eq!((store.windows(9), store.windows(0)), (Some(3), None));
}
