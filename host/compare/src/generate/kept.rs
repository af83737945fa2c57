//! The calls of a store that stand in the fixed list.

use super::broken_runs;
use super::circuits::{diagonal, linear};
use super::edges::{linear_run, ring_run, rossler, usual_runs, with_windows};
use super::runs::HALVING;
use crate::cases::{Call, Run};
use crate::random::Random;
use input::MAX_COUNT;

/// A call, and a remark on it.
type Remarked = (Call, &'static str);

/// All calls, in their order.
pub fn calls() -> Vec<Remarked> {
    let mut calls = vec![
        (Call::Empty, "a store that keeps nothing"),
        (Call::Forget(0), "nothing to forget"),
        (go_on(255, &decay(), 0), "nothing is kept, and no windows"),
    ];
    calls.extend(every_system());
    calls.extend(replaced());
    calls.extend(refused_keeps());
    calls.extend(windows_and_outputs());
    calls.extend(refused_later());
    calls.extend(eight());
    calls
}

/// Two directions that shrink by themselves.
pub fn decay() -> Run {
    linear_run(diagonal(&[-0.25, -0.5]), 2, 0.125)
}

fn keep(number: u8, run: &Run, windows: u64) -> Call {
    Call::Keep(number, Box::new(with_windows(run.clone(), windows)))
}

fn go_on(number: u8, run: &Run, windows: u64) -> Call {
    Call::GoOn(number, Box::new(with_windows(run.clone(), windows)))
}

/// Each system goes on twice from one kept state, and three of them with a matrix that they do not
/// read. The last has the largest state and the most directions.
fn every_system() -> Vec<Remarked> {
    let mut runs: Vec<Run> = usual_runs().into_iter().map(|(run, _)| run).collect();
    runs.extend([decay(), ring_run(5, 8.0, 3)]);
    let mut calls = vec![];
    for (number, run) in (3..).zip(&runs) {
        calls.push((keep(number, run, 2), "each system"));
        calls.push((go_on(number, run, 1), "one later window"));
        calls.push((go_on(number, run, 3), "later windows from the same state"));
    }
    for (number, run) in (3..).zip(&runs[..3]) {
        let mut other = run.clone();
        other.circuit = run.circuit.with_matrix(&[f64::NAN, 1.0]);
        calls.push((go_on(number, &other, 1), "another matrix that is not read"));
    }
    let widest = ring_run(16, 8.0, 16);
    calls.push((keep(255, &widest, 1), "16 cells, K = 16"));
    calls.push((go_on(255, &widest, 1), "16 cells, K = 16"));
    calls
}

/// A used number keeps another run from then on, and a faint direction is counted in all windows.
fn replaced() -> Vec<Remarked> {
    let mut faint = linear_run(diagonal(&[HALVING]), 1, 1.0);
    faint.settings.steps_per_window = 481;
    vec![
        (keep(3, &decay(), 1), "a used number is replaced"),
        (go_on(3, &decay(), 2), "from what replaced the other"),
        (keep(3, &decay(), 3), "replaced by more windows"),
        (go_on(3, &decay(), 2), "from what replaced the other"),
        (keep(4, &faint, 1), "a faint window"),
        (go_on(4, &faint, 1), "two faint windows"),
    ]
}

/// Keeps with each failing test, under a used number and under a free one.
fn refused_keeps() -> Vec<Remarked> {
    let mut random = Random::seeded(3);
    let broken = broken_runs::each(&mut random);
    let mut calls = vec![];
    for (number, run) in [3, 100].into_iter().cycle().zip(broken) {
        calls.push((Call::Keep(number, Box::new(run)), "a refused keep"));
    }
    calls.push((go_on(3, &decay(), 2), "a refused keep replaces nothing"));
    calls.push((go_on(100, &decay(), 2), "a refused keep keeps nothing"));
    calls
}

/// 4 tests the windows that are brought, 5 all of them, and 13 counts the rows of those brought. Three
/// windows of the system are kept under 3.
fn windows_and_outputs() -> Vec<Remarked> {
    let brought = |windows: u64| {
        let mut run = with_windows(decay(), 1);
        run.settings.windows = windows;
        Call::GoOn(3, Box::new(run))
    };
    let short = |change: fn(&mut Run)| {
        let mut run = with_windows(decay(), 2);
        change(&mut run);
        Call::GoOn(3, Box::new(run))
    };
    vec![
        (brought(0), "no windows are brought"),
        (brought(MAX_COUNT - 2), "all windows one above the limit"),
        (brought(MAX_COUNT + 1), "windows one above the limit"),
        (brought(u64::MAX - 3), "all windows the largest number"),
        (brought(u64::MAX - 2), "all windows 2^64"),
        (brought(u64::MAX), "the largest number"),
        (brought(MAX_COUNT - 3), "all windows at the limit, few rows"),
        (short(|run| run.rows -= 1), "rows one float short"),
        (short(|run| run.exponents -= 1), "exponents one float short"),
        (
            short(|run| run.final_state -= 1),
            "final state one float short",
        ),
        (go_on(3, &decay(), 2), "rows of the later windows suffice"),
    ]
}

/// Runs that are refused in their third window: by 14, 16, 17 and 18.
pub fn refused_in_a_later_window() -> [Run; 4] {
    let growing = |a: f64, size: f64| {
        let mut run = linear_run(rossler(a, 0.0, 1.0), 1, 1.0);
        run.state = vec![size, 2.0 * size, 0.0];
        run
    };
    [
        growing(1e12, 1e-30),
        linear_run(linear(1, vec![1e30]), 1, 6.0),
        growing(1e13, 1e-24),
        linear_run(linear(1, vec![0.0]), 1, 8e307),
    ]
}

/// Two windows are kept, then one; the third is refused, on keeping and on going on.
fn refused_later() -> Vec<Remarked> {
    let mut calls = vec![];
    for run in refused_in_a_later_window() {
        calls.push((keep(9, &run, 2), "two windows before a refusal"));
        calls.push((go_on(9, &run, 2), "refused in the first later window"));
        calls.push((keep(9, &run, 1), "one window"));
        calls.push((keep(9, &run, 3), "refused after two rows"));
        calls.push((go_on(9, &run, 3), "refused after a later row"));
        calls.push((go_on(9, &run, 1), "the window before the refused one"));
    }
    calls
}

/// Eight numbers, and a ninth.
fn eight() -> Vec<Remarked> {
    let small = linear_run(linear(1, vec![0.5]), 1, 0.5);
    let mut failing = small.clone();
    failing.settings.top_k = 0;
    let mut calls = vec![(Call::Empty, "forgets all of them")];
    calls.push((go_on(3, &decay(), 1), "forgotten with all others"));
    for number in [7, 0, 255, 31, 8, 100, 1, 254] {
        calls.push((keep(number, &small, 1), "up to eight"));
    }
    calls.extend([
        (keep(9, &small, 1), "a ninth"),
        (
            Call::Keep(9, Box::new(failing.clone())),
            "27 before any other test",
        ),
        (keep(31, &small, 2), "one of the eight is replaced"),
        (go_on(31, &small, 1), "from what replaced the other"),
        (
            Call::Keep(31, Box::new(failing)),
            "one of the eight, refused",
        ),
        (go_on(31, &small, 1), "a refused keep replaces nothing"),
        (Call::Forget(100), "forgotten"),
        (Call::Forget(100), "already forgotten"),
        (go_on(100, &small, 1), "forgotten"),
        (keep(9, &small, 3), "in the forgotten place"),
        (keep(100, &small, 1), "a ninth"),
        (go_on(9, &small, 1), "from the place that was forgotten"),
        (Call::Forget(7), "the first that was kept"),
        (Call::Forget(254), "the last that was kept"),
        (keep(100, &small, 2), "kept again"),
        (go_on(100, &small, 2), "kept again"),
        (go_on(255, &small, 1), "untouched by the others"),
        (go_on(0, &small, 2), "untouched by the others"),
    ]);
    calls
}

#[cfg(test)]
mod tests {
    use super::*;
    use crate::cases::{Case, Reference};
    use std::collections::BTreeSet;

    /// The numbers of the refusals of each kind of call.
    fn numbers(of: fn(&Call) -> bool) -> BTreeSet<u64> {
        let mut reference = Reference::default();
        let answered = calls().into_iter().map(|(call, remark)| {
            let answers = reference.answers(&call, None);
            let (answer, _) = answers.unwrap_or_else(|| panic!("{remark} is free"));
            (call, answer.number())
        });
        let of_kind = answered.filter(|(call, _)| of(call));
        of_kind.map(|(_, number)| number).collect()
    }

    #[test]
    fn every_refusal_is_there() {
        let keeps = numbers(|call| matches!(call, Call::Keep(..)));
        let expected = (0..=18).chain([25, 27]);
        assert_eq!(keeps, expected.collect());
        let goings_on = numbers(|call| matches!(call, Call::GoOn(..)));
        assert_eq!(goings_on, [0, 4, 5, 13, 14, 16, 17, 18, 26].into());
        let forgettings = numbers(|call| matches!(call, Call::Forget(_)));
        assert_eq!(forgettings, [0, 26].into());
    }

    #[test]
    fn the_third_window_is_refused() {
        let refused = refused_in_a_later_window().map(|run| {
            let two = with_windows(run.clone(), 2).model();
            assert_eq!(two.number(), 0, "{}", run.written());
            with_windows(run, 3).model().number()
        });
        assert_eq!(refused, [14, 16, 17, 18]);
    }
}
