//! Runs whose warm-up windows have steps of their own, for the fixed list.

use super::edges::{linear_run, ring_run, usual_runs, with_windows};
use super::kept::{decay, refused_in_a_later_window};
use super::runs::HALVING;
use super::{circuits::diagonal, circuits::linear};
use crate::cases::{Call, Run};
use input::MAX_COUNT;

/// A run, or a call of a store, and a remark on it.
type Remarked<T> = (T, &'static str);

/// The run with so many warm-up windows of so many steps each.
pub fn with_warm_up(mut run: Run, windows: u64, steps: u64) -> Run {
    run.settings.transient_windows = windows;
    run.settings.steps_per_transient_window = Some(steps);
    run
}

/// 29 and what is tested before and behind it.
pub fn without_steps() -> Vec<Remarked<Run>> {
    let with = |change: fn(&mut Run)| {
        let mut run = with_warm_up(linear_run(linear(1, vec![0.0]), 1, 1.0), 2, 0);
        change(&mut run);
        run
    };
    vec![
        (with(|_| {}), "warm-up windows without steps"),
        (
            with(|run| run.settings.transient_windows = 0),
            "29 without warm-up windows",
        ),
        (with(|run| run.settings.steps_per_window = 0), "3 before 29"),
        (with(|run| run.settings.windows = 0), "4 before 29"),
        (
            with(|run| run.settings.steps_per_window = MAX_COUNT + 1),
            "29 before 5 at the steps",
        ),
        (
            with(|run| run.settings.windows = MAX_COUNT + 1),
            "29 before 5 at the windows",
        ),
        (
            with(|run| run.settings.transient_windows = MAX_COUNT + 1),
            "29 before 5 at the warm-up",
        ),
        (with(|run| run.time = f64::NAN), "29 before 6"),
    ]
}

/// Each system with long warm-up windows and with short ones, and for fewer exponents.
pub fn of_every_system() -> Vec<Remarked<Run>> {
    let mut runs: Vec<Run> = usual_runs().into_iter().map(|(run, _)| run).collect();
    runs.extend([decay(), ring_run(5, 8.0, 3)].map(|run| with_windows(run, 2)));
    let lorenz = runs[0].clone();
    let mut with: Vec<Remarked<Run>> = vec![];
    for run in runs {
        with.push((with_warm_up(run.clone(), 2, 25), "long warm-up windows"));
        with.push((with_warm_up(run, 3, 1), "short warm-up windows"));
    }
    for top_k in 1..=2 {
        let mut fewer = lorenz.clone();
        fewer.settings.top_k = top_k;
        let fewer = with_windows(fewer, 3);
        with.push((with_warm_up(fewer, 2, 25), "demand 3"));
    }
    let steps = lorenz.settings.steps_per_window;
    with.push((with_warm_up(lorenz.clone(), 2, steps), "equal steps given"));
    with.push((
        with_warm_up(lorenz, 0, 7),
        "no warm-up windows, which would have other steps",
    ));
    with
}

/// A direction that becomes faint or collapses in one sort of window alone.
pub fn of_lengths() -> Vec<Remarked<Run>> {
    let run = |steps: u64, warm_up_steps: u64| {
        let mut run = with_windows(linear_run(diagonal(&[HALVING]), 1, 1.0), 2);
        run.settings.steps_per_window = steps;
        with_warm_up(run, 1, warm_up_steps)
    };
    vec![
        (run(1, 480), "2^-960 in the warm-up is not faint"),
        (run(1, 481), "faint in the warm-up alone"),
        (run(481, 1), "faint in the measured windows alone"),
        (run(481, 482), "faint in both"),
        (run(1, 537), "2^-1074 in the warm-up does not collapse"),
        (run(1, 538), "collapses in the warm-up"),
        (run(538, 1), "collapses in the first measured window"),
    ]
}

/// 15 is tested on the measured steps alone, and 16, 17 and 18 in the steps that are made.
pub fn refused_while_they_run() -> Vec<Remarked<Run>> {
    let rests = |steps: u64, windows: u64, warm_up_steps: u64| {
        let mut run = linear_run(linear(1, vec![0.0]), 1, 1e308);
        run.settings.steps_per_window = steps;
        with_warm_up(run, windows, warm_up_steps)
    };
    let mut runs = vec![
        (rests(2, 1, 1), "the duration of a measured window"),
        (rests(1, 0, 2), "that of a warm-up window is not tested"),
        (rests(1, 1, 2), "the time in the warm-up"),
    ];
    for run in refused_in_a_later_window() {
        let run = with_windows(run, 2);
        let in_warm_up = with_warm_up(run.clone(), 1, 4);
        runs.push((in_warm_up, "refused in the warm-up"));
        runs.push((with_warm_up(run, 2, 1), "refused behind the warm-up"));
    }
    runs
}

/// All calls of a store, in their order.
pub fn kept() -> Vec<Remarked<Call>> {
    let [(lorenz, _), ..] = &usual_runs()[..] else {
        return vec![];
    };
    let steps = lorenz.settings.steps_per_window;
    let (others, equal) = (
        with_warm_up(lorenz.clone(), 2, 25),
        with_warm_up(lorenz.clone(), 2, steps),
    );
    let keep = |number: u8, run: &Run| Call::Keep(number, Box::new(with_windows(run.clone(), 2)));
    let go_on = |number: u8, run: &Run| {
        let later = with_windows(run.clone(), 3);
        Call::GoOn(number, Box::new(later))
    };
    let changed = |steps: u64| with_warm_up(others.clone(), 2, steps);
    vec![
        (Call::Empty, "a store that keeps nothing"),
        (go_on(7, &changed(0)), "26 before 29"),
        (keep(7, &others), "other steps in the warm-up"),
        (go_on(7, &others), "gone on with them"),
        (keep(8, lorenz), "equal steps left out"),
        (go_on(8, &equal), "equal steps given"),
        (keep(9, &equal), "equal steps given"),
        (go_on(9, lorenz), "equal steps left out"),
        (keep(7, &changed(0)), "a refused keep"),
        (keep(7, &changed(MAX_COUNT + 1)), "a refused keep"),
        (go_on(7, &changed(0)), "29 on going on"),
        (go_on(7, &changed(MAX_COUNT + 1)), "5 at the warm-up steps"),
        (go_on(7, &others), "what was kept stays"),
    ]
}

#[cfg(test)]
mod tests {
    use super::*;
    use crate::cases::{Case, Reference};
    use crate::values::Value;

    fn numbers(runs: Vec<Remarked<Run>>) -> Vec<u64> {
        runs.iter().map(|(run, _)| run.model().number()).collect()
    }

    #[test]
    fn tests_in_their_order() {
        assert_eq!(numbers(without_steps()), [29, 29, 3, 4, 29, 29, 29, 29]);
        let refused = [15, 0, 18, 17, 14, 16, 16, 17, 17, 18, 18];
        assert_eq!(numbers(refused_while_they_run()), refused);
        assert_eq!(numbers(of_lengths()), [0, 0, 0, 0, 0, 14, 14]);
        assert_eq!(numbers(of_every_system()), [0; 14]);
    }

    #[test]
    fn faint_windows_of_both_sorts() {
        let faint = |(run, _): &Remarked<Run>| match run.model().get("faint") {
            Some(Value::Counts(counts)) => counts[0],
            _ => 0,
        };
        let counts: Vec<u64> = of_lengths()[..5].iter().map(faint).collect();
        assert_eq!(counts, [0, 1, 2, 3, 1]);
    }

    /// No answer is free, and steps of the warm-up are in the count of steps.
    #[test]
    fn calls_of_a_store() {
        let mut reference = Reference::default();
        let mut answered = kept().into_iter().map(|(call, _)| {
            let (answer, _) = reference.answers(&call, None).unwrap();
            (answer.number(), answer.count("made"))
        });
        assert_eq!(answered.nth(2), Some((0, 70)));
        assert_eq!(answered.next(), Some((0, 100)));
        let numbers: Vec<u64> = answered.map(|(number, _)| number).collect();
        assert_eq!(numbers, [0, 0, 0, 0, 29, 5, 29, 5, 0]);
    }
}
