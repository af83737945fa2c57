//! Lists of calls of a dispatcher.

use super::stores::{roomy, short_run, shortened};
use super::{broken_runs, wrong_length};
use crate::cases::dispatcher::{Call, Lending, OVER, SETS};
use crate::cases::{Run, Slices};
use crate::random::Random;
use crate::values::Answer;
use input::System;
use std::collections::BTreeMap;

/// The most calls of a list, beside the one that empties its dispatcher and the turns that end it.
const MOST_CALLS: u64 = 80;

/// As many sets for the unfinished runs; the rest is lent now and then.
const OWN_SETS: usize = SETS / 2;

/// A list of calls that is drawn as it goes, since what is lent is mostly that of the run in front.
pub struct Calls {
    /// The unfinished runs, by name.
    handed_in: BTreeMap<u64, Handed>,
    /// The lengths of the sets that were made.
    lengths: BTreeMap<usize, Slices<usize>>,
    left: u64,
    /// How many of a hundred calls hand in, where somebody is next.
    hand_ins: u64,
    /// Whether all runs have their turns before the list ends.
    to_the_end: bool,
}

/// A run with a matrix and outputs that fit, and the set of these.
struct Handed {
    run: Run,
    set: usize,
}

impl Calls {
    pub fn drawn(random: &mut Random) -> Self {
        Self {
            handed_in: BTreeMap::new(),
            lengths: BTreeMap::new(),
            left: random.within(1, MOST_CALLS),
            hand_ins: random.pick(&[15, 25, 35, 60]),
            to_the_end: random.one_in(2),
        }
    }

    /// The next call of the list, where the run named `in_front` is next.
    pub fn next(&mut self, in_front: Option<u64>, random: &mut Random) -> Option<Call> {
        let in_front = in_front.and_then(|name| self.handed_in.get(&name));
        let Some(left) = self.left.checked_sub(1) else {
            let last = in_front.filter(|_| self.to_the_end)?;
            return Some(Call::Turn(Box::new(self.fitting(last))));
        };
        self.left = left;
        let hand_ins = match in_front {
            Some(_) => self.hand_ins,
            None => 80,
        };
        Some(match random.below(200) {
            0 => Call::Empty,
            1..=9 => Call::Next,
            drawn if drawn < 10 + 2 * hand_ins => Call::HandIn(Box::new(any_run(random))),
            _ => self.turn_of(in_front, random),
        })
    }

    /// A turn, where the run named `in_front` is next.
    pub fn turn(&self, in_front: Option<u64>, random: &mut Random) -> Call {
        let in_front = in_front.and_then(|name| self.handed_in.get(&name));
        self.turn_of(in_front, random)
    }

    fn turn_of(&self, in_front: Option<&Handed>, random: &mut Random) -> Call {
        let lending = in_front.map(|handed| self.lending(handed, random));
        Call::Turn(Box::new(lending.unwrap_or_else(|| anything(random))))
    }

    /// Takes notice of a call and of its answer.
    pub fn note(&mut self, call: &Call, answer: &Answer, random: &mut Random) {
        let name = answer.count("name");
        match call {
            Call::Empty => self.handed_in.clear(),
            Call::HandIn(run) if answer.number() == 0 => {
                let set = self.free_set(random);
                let run = roomy(with_what_fits(run, random), random);
                self.lengths.remove(&set);
                self.handed_in.insert(name, Handed { run, set });
            }
            Call::Turn(lending) => {
                self.lengths.insert(lending.set, lending.lengths.clone());
                if answer.is("stage", OVER) {
                    self.handed_in.remove(&name);
                }
            }
            Call::HandIn(_) | Call::Next => {}
        }
    }

    /// A set that no unfinished run has.
    fn free_set(&self, random: &mut Random) -> usize {
        let is_free = |set: &usize| self.handed_in.values().all(|handed| handed.set != *set);
        let free: Vec<usize> = (0..OWN_SETS).filter(is_free).collect();
        random.pick(&free)
    }

    /// What a run is lent that is alone with its slices.
    fn fitting(&self, handed: &Handed) -> Lending {
        let mut lending = Lending::of(&handed.run, handed.set);
        lending.fresh = self.lengths.get(&handed.set) != Some(&lending.lengths);
        lending
    }

    /// The same; now and then something that does not fit, or that another run is lent as well.
    fn lending(&self, handed: &Handed, random: &mut Random) -> Lending {
        let mut lending = self.fitting(handed);
        match random.below(64) {
            0 | 1 => unfit_matrix(&mut lending, random),
            2..=4 => unfit_outputs(&mut lending, handed, random),
            5 => {
                unfit_matrix(&mut lending, random);
                unfit_outputs(&mut lending, handed, random);
            }
            6 => lending.fresh = true,
            7 => elsewhere(&mut lending, random),
            8 => self.with_any_set(&mut lending, random),
            9 => lending
                .matrix
                .iter_mut()
                .for_each(|x| *x = random.ordinary()),
            _ => {}
        }
        lending
    }

    /// One of the sets that were made, whoever's it is.
    fn with_any_set(&self, lending: &mut Lending, random: &mut Random) {
        let Some(at) = self.lengths.len().checked_sub(1) else {
            return;
        };
        let at = random.size_below(at + 1);
        if let Some((set, lengths)) = self.lengths.iter().nth(at) {
            lending.set = *set;
            lending.lengths = lengths.clone();
            lending.fresh = false;
        }
    }
}

/// A short run; now and then one with failing tests.
fn any_run(random: &mut Random) -> Run {
    match random.one_in(6) {
        true => broken_runs::broken(random.below(broken_runs::PAIRS), random),
        false => short_run(random),
    }
}

/// The run that was taken, with a matrix and outputs for its turns.
pub fn with_what_fits(run: &Run, random: &mut Random) -> Run {
    let mut circuit = run.circuit.clone();
    if let System::Linear { dimension, matrix } = &run.circuit.system {
        let entries = dimension * dimension;
        if matrix.len() != entries {
            circuit = circuit.with_matrix(&random.list(entries, Random::ordinary));
        }
    }
    Run::fitting(circuit, run.settings, run.time, run.state.clone())
}

fn unfit_matrix(lending: &mut Lending, random: &mut Random) {
    let length = wrong_length(random, lending.matrix.len());
    lending.matrix.resize(length, f64::NAN);
}

/// Outputs of which one to three are one entry short.
fn unfit_outputs(lending: &mut Lending, handed: &Handed, random: &mut Random) {
    let short = shortened(handed.run.clone(), random);
    lending.lengths = short.lengths();
    elsewhere(lending, random);
}

/// A set that is nobody's.
fn elsewhere(lending: &mut Lending, random: &mut Random) {
    lending.set = OWN_SETS + random.size_below(SETS - OWN_SETS);
    lending.fresh = true;
}

/// What is lent where nobody is next.
fn anything(random: &mut Random) -> Lending {
    let length = random.size_below(5);
    let mut lending = Lending {
        set: 0,
        fresh: true,
        matrix: random.list(length, Random::any),
        lengths: Slices {
            rows: random.size_below(10),
            exponents: random.size_below(4),
            final_state: random.size_below(4),
        },
    };
    elsewhere(&mut lending, random);
    lending
}

#[cfg(test)]
mod tests {
    use super::*;
    use crate::cases::dispatcher::{Reference, UNFIT};
    use input::MAX_COUNT;
    use std::collections::BTreeSet;

    /// The calls of some lists, with their answers.
    fn drawn(lists: u64, mut see: impl FnMut(&Calls, &Call, &Answer)) {
        let mut random = Random::seeded(5);
        for _ in 0..lists {
            let (mut calls, mut reference) = (Calls::drawn(&mut random), Reference::default());
            while let Some(call) = calls.next(reference.next(), &mut random) {
                let (answer, _) = reference.answers(&call);
                see(&calls, &call, &answer);
                calls.note(&call, &answer, &mut random);
            }
            let ended = reference.next().is_none();
            assert!(ended || !calls.to_the_end);
        }
    }

    #[test]
    fn no_run_is_long() {
        drawn(300, |_, call, answer| {
            if let (Call::HandIn(run), 0) = (call, answer.number()) {
                let settings = run.settings;
                let windows = settings.windows + settings.transient_windows;
                let (steps, rows) = (settings.steps_per_window, settings.windows);
                assert!(steps <= 600 && windows <= 32, "{settings:?}");
                assert!(rows < MAX_COUNT);
            }
        });
    }

    #[test]
    fn unfinished_runs_have_sets_of_their_own() {
        let mut most = 0;
        drawn(300, |calls, _, _| {
            let sets: BTreeSet<usize> = calls.handed_in.values().map(|own| own.set).collect();
            assert_eq!(sets.len(), calls.handed_in.len());
            assert!(sets.iter().all(|set| *set < OWN_SETS));
            most = most.max(sets.len());
        });
        assert_eq!(most, OWN_SETS);
    }

    /// A set that is lent again has the lengths that it was made with, and most turns fit.
    #[test]
    fn what_is_lent_again_is_there() {
        let (mut spent, mut unfit) = (0, 0);
        drawn(300, |calls, call, answer| {
            if let Call::Turn(lending) = call {
                let made = calls.lengths.get(&lending.set);
                assert!(lending.fresh || made == Some(&lending.lengths));
                match answer.is("stage", UNFIT) {
                    true => unfit += 1,
                    false => spent += 1,
                }
            }
        });
        assert!(unfit > 100 && unfit < spent / 4, "{unfit} {spent}");
    }
}
