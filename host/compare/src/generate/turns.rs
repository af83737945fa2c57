//! The calls of a dispatcher that stand in the fixed list.

use super::broken_runs;
use super::circuits::{diagonal, linear};
use super::edges::{linear_run, ring_run, usual_runs, with_windows};
use super::kept::{decay, refused_in_a_later_window};
use super::runs::HALVING;
use super::warm_up::with_warm_up;
use crate::cases::dispatcher::{Call, Lending, Reference, OVER};
use crate::cases::{Run, Slices};
use crate::random::Random;
use crate::values::Answer;
use input::MAX_COUNT;
use std::collections::BTreeMap;

/// The name of the linear system among all systems.
const LINEAR: u64 = 3;

/// A call, and a remark on it.
type Remarked = (Call, &'static str);

/// All calls, in their order.
pub fn calls() -> Vec<Remarked> {
    let mut script = Script::default();
    script.nobody();
    script.every_system();
    script.refused_hand_ins();
    script.refused_in_windows();
    script.eight();
    script.other_slices();
    script.calls
}

/// Those of runs whose warm-up windows have steps of their own, in their order.
pub fn calls_with_warm_up_steps() -> Vec<Remarked> {
    let mut script = Script::default();
    script.nobody();
    script.warm_up_steps();
    script.calls
}

/// The calls so far.
#[derive(Default)]
struct Script {
    calls: Vec<Remarked>,
    reference: Reference,
    /// What each unfinished run is lent, by name: a set of its own.
    lent: BTreeMap<u64, Lending>,
    /// The lengths of the sets that were made.
    made: BTreeMap<usize, Slices<usize>>,
}

impl Script {
    fn add(&mut self, call: Call, remark: &'static str) -> Answer {
        let (answer, _) = self.reference.answers(&call);
        self.calls.push((call, remark));
        answer
    }

    fn next(&mut self, remark: &'static str) {
        self.add(Call::Next, remark);
    }

    fn hand_in(&mut self, run: &Run, remark: &'static str) {
        let answer = self.add(Call::HandIn(Box::new(run.clone())), remark);
        let name = answer.count("name");
        if answer.number() == 0 {
            let set = name as usize;
            self.made.remove(&set);
            let lending = Lending {
                fresh: false,
                ..Lending::of(run, set)
            };
            self.lent.insert(name, lending);
        }
    }

    /// A turn of the run in front, which is lent what `change` makes of its own.
    fn turn_with(&mut self, remark: &'static str, change: impl FnOnce(&mut Lending)) {
        let name = self.reference.next().expect("an unfinished run");
        let mut lending = self.lent[&name].clone();
        change(&mut lending);
        let answer = self.lend(lending, remark);
        if answer.is("stage", OVER) {
            self.lent.remove(&name);
        }
    }

    /// A turn. The set is made where it is not there with these lengths.
    fn lend(&mut self, mut lending: Lending, remark: &'static str) -> Answer {
        let (set, lengths) = (lending.set, lending.lengths.clone());
        lending.fresh |= self.made.insert(set, lengths.clone()) != Some(lengths);
        self.add(Call::Turn(Box::new(lending)), remark)
    }

    fn turns(&mut self, count: usize, remark: &'static str) {
        for _ in 0..count {
            self.turn_with(remark, |_| {});
        }
    }

    /// The turns of runs that all fit.
    fn all_turns(&mut self, remark: &'static str) {
        for _ in 0..100 {
            if self.reference.next().is_some() {
                self.turns(1, remark);
            }
        }
    }

    fn nobody(&mut self) {
        self.add(Call::Empty, "a dispatcher without runs");
        self.next("nobody");
        self.turn_of_nobody("nobody is next");
    }

    fn turn_of_nobody(&mut self, remark: &'static str) {
        let lending = Lending {
            set: 15,
            fresh: false,
            matrix: vec![f64::NAN],
            lengths: Slices {
                rows: 3,
                exponents: 1,
                final_state: 2,
            },
        };
        self.lend(lending, remark);
    }

    /// Each system, with and without warm-up; unfit turns among the others.
    fn every_system(&mut self) {
        let mut runs: Vec<Run> = usual_runs().into_iter().map(|(run, _)| run).collect();
        runs.extend([decay(), ring_run(5, 8.0, 3)]);
        for (run, warm_up) in runs.iter_mut().zip([1, 0, 0, 0, 1]) {
            run.settings.transient_windows = warm_up;
            self.hand_in(&with_windows(run.clone(), 2), "each system");
        }
        let own = self.lent.get_mut(&LINEAR).expect("the linear system");
        own.lengths.rows += 2;
        own.lengths.exponents += 1;
        own.lengths.final_state += 1;
        self.next("the first that was handed in");
        self.turns(1, "a warm-up window");
        self.turns(3, "a measured window");
        self.turns(1, "a warm-up window");
        self.turns(1, "the first row after the warm-up");
        self.turn_with("a matrix that is not read", |lending| {
            lending.matrix = vec![f64::NAN, 1.0];
        });
        self.turns(1, "over before the others");
        self.unfit_turns();
        self.next("an unfit turn is not spent");
        self.all_turns("to the end");
        self.next("all are over");
    }

    /// Turns of the linear system after its first window.
    fn unfit_turns(&mut self) {
        for length in [3, 5] {
            self.turn_with("a matrix that does not fit", |lending| {
                lending.matrix.resize(length, 1.0);
            });
        }
        let just = with_windows(decay(), 2).lengths();
        let mut with = |remark, shorten: fn(&mut Slices<usize>), entries: usize| {
            self.turn_with(remark, |lending| {
                lending.set = 8;
                lending.lengths = just.clone();
                lending.matrix.truncate(entries);
                shorten(&mut lending.lengths);
            });
        };
        with("rows one float short", |lengths| lengths.rows -= 1, 4);
        with(
            "exponents one float short",
            |lengths| lengths.exponents -= 1,
            4,
        );
        with(
            "final state one float short",
            |lengths| lengths.final_state -= 1,
            4,
        );
        let none = |lengths: &mut Slices<usize>| {
            *lengths = Slices {
                rows: 0,
                exponents: 0,
                final_state: 0,
            };
        };
        with("all outputs short", none, 4);
        with("9 before 13", none, 0);
    }

    /// A hand-in for each test that it makes, beside a run that is under way.
    fn refused_hand_ins(&mut self) {
        self.hand_in(&with_windows(decay(), 2), "beside refused hand-ins");
        self.turns(1, "a window before them");
        let broken = broken_runs::each(&mut Random::seeded(3));
        let on_hand_in = broken.iter().filter(|run| {
            let input = Call::HandIn(Box::new(Run::clone(run)));
            let (answer, _) = Reference::default().answers(&input);
            answer.number() != 0
        });
        for run in on_hand_in {
            self.hand_in(run, "a refused hand-in");
        }
        self.all_turns("refused ones leave it alone");
    }

    /// One that collapses in its only warm-up window, one that goes on, and runs that are refused in
    /// their third window.
    fn refused_in_windows(&mut self) {
        let mut collapse = linear_run(diagonal(&[HALVING]), 1, 1.0);
        collapse.settings.steps_per_window = 538;
        collapse.settings.transient_windows = 1;
        self.hand_in(&collapse, "collapses in the first window");
        self.hand_in(&with_windows(decay(), 4), "a run that goes on");
        for run in refused_in_a_later_window() {
            self.hand_in(&with_windows(run, 3), "refused in the third window");
        }
        self.turns(1, "a collapse of a neighbour");
        self.hand_in(&with_windows(decay(), 1), "named as the one that collapsed");
        self.all_turns("until all are over");
    }

    /// Eight unfinished runs, and a ninth.
    fn eight(&mut self) {
        let small = |windows| with_windows(linear_run(linear(1, vec![0.5]), 1, 0.5), windows);
        let mut failing = small(1);
        failing.settings.top_k = 0;
        for windows in [2, 1, 2, 2, 2, 1, 2, 2] {
            self.hand_in(&small(windows), "up to eight");
        }
        self.hand_in(&small(1), "a ninth");
        self.hand_in(&failing, "28 before any other test");
        self.turns(6, "the second and the sixth are over");
        self.next("who has waited longest");
        self.hand_in(&failing, "a refused hand-in takes no name");
        self.hand_in(&small(1), "the least of two free names");
        self.hand_in(&small(1), "the other free name");
        self.hand_in(&small(1), "a ninth again");
        self.turns(3, "those handed in later wait behind");
        self.add(Call::Empty, "forgets all of them");
        self.lent.clear();
        self.next("nobody");
        self.turn_of_nobody("nobody is next");
    }

    /// Each system with other steps in its warm-up windows; hand-ins that are refused for them.
    fn warm_up_steps(&mut self) {
        let mut runs: Vec<Run> = usual_runs().into_iter().map(|(run, _)| run).collect();
        runs.extend([decay(), ring_run(5, 8.0, 3)]);
        for (run, steps) in runs.into_iter().zip([25, 1, 10, 3, 2]) {
            let run = with_warm_up(with_windows(run, 2), 2, steps);
            self.hand_in(&run, "each system");
        }
        let unfit = |steps: u64| with_warm_up(decay(), 0, steps);
        self.hand_in(&unfit(0), "29 on hand-in");
        self.hand_in(&unfit(MAX_COUNT + 1), "5 at the warm-up steps");
        self.turns(10, "a warm-up window");
        let mut collapse = linear_run(diagonal(&[HALVING]), 1, 1.0);
        collapse.settings.steps_per_window = 481;
        self.hand_in(
            &with_warm_up(collapse.clone(), 1, 538),
            "collapses in the warm-up",
        );
        self.hand_in(&with_warm_up(collapse, 1, 1), "is faint behind it");
        self.all_turns("to the end");
        self.next("all are over");
    }

    /// Outputs that are made anew or exchanged between turns: what is written, and what stays as it was.
    fn other_slices(&mut self) {
        let mut faint = linear_run(diagonal(&[HALVING]), 1, 1.0);
        faint.settings.steps_per_window = 481;
        self.hand_in(&with_windows(faint, 3), "faint in each window");
        let mut widest = ring_run(16, 8.0, 16);
        widest.settings.transient_windows = 1;
        self.hand_in(&widest, "16 cells, K = 16");
        self.turns(2, "a window of each");
        self.turn_with("outputs made anew", |lending| lending.fresh = true);
        self.turns(1, "16 cells, K = 16");
        self.turn_with("the last row in another set", |lending| {
            lending.set = 9;
            lending.fresh = true;
        });
    }
}

#[cfg(test)]
mod tests {
    use super::*;
    use std::collections::BTreeSet;

    /// The numbers of the refusals of each kind of call.
    fn numbers(of: fn(&Call) -> bool) -> BTreeSet<u64> {
        let mut reference = Reference::default();
        let answered = calls().into_iter().map(|(call, _)| {
            let (answer, _) = reference.answers(&call);
            (call, answer.number())
        });
        let of_kind = answered.filter(|(call, _)| of(call));
        of_kind.map(|(_, number)| number).collect()
    }

    #[test]
    fn every_refusal_is_there() {
        let hand_ins = numbers(|call| matches!(call, Call::HandIn(_)));
        let expected = (0..=8).chain([10, 11, 12, 14, 15, 25, 28]);
        assert_eq!(hand_ins, expected.collect());
        let turns = numbers(|call| matches!(call, Call::Turn(_)));
        assert_eq!(turns, [0, 9, 13, 14, 16, 17, 18].into());
    }

    /// All runs with other steps in the warm-up are over, one of them by a collapse there.
    #[test]
    fn warm_up_steps_of_their_own() {
        let mut script = Script::default();
        script.nobody();
        script.warm_up_steps();
        assert_eq!(script.reference.next(), None);
        assert!(script.lent.is_empty());
        let mut reference = Reference::default();
        let answers = calls_with_warm_up_steps().into_iter();
        let answers = answers.map(|(call, _)| reference.answers(&call).0);
        let numbers: BTreeSet<u64> = answers.map(|answer| answer.number()).collect();
        assert_eq!(numbers, [0, 5, 14, 29].into());
    }

    /// The runs of the last part but one are forgotten; all others are over.
    #[test]
    fn runs_are_over_or_forgotten() {
        let mut script = Script::default();
        script.nobody();
        let parts: [fn(&mut Script); 3] = [
            Script::every_system,
            Script::refused_hand_ins,
            Script::refused_in_windows,
        ];
        for part in parts {
            part(&mut script);
            assert_eq!(script.reference.next(), None);
            assert!(script.lent.is_empty());
        }
        script.eight();
        script.other_slices();
        assert_eq!(script.reference.next(), None);
    }
}
