//! Lists of calls of a store.

use super::seeds::seed_with_zero;
use super::{broken_runs, runs, settings};
use crate::cases::{Call, Case, Run};
use crate::circuit::Circuit;
use crate::random::Random;
use input::{Settings, System, MAX_COUNT};
use lyapunov_sys::Arguments;
use std::collections::BTreeMap;

/// The most calls of a list, beside the one that empties its store.
const MOST_CALLS: u64 = 40;

/// A list of calls that is drawn as it goes, since what is brought to a going on is mostly what was
/// kept.
pub struct Calls {
    /// The numbers that are drawn from; all where there are none.
    numbers: Vec<u8>,
    runs: Vec<Run>,
    kept: BTreeMap<u8, Run>,
    left: u64,
    /// How many of a hundred calls keep.
    keeps: u64,
}

impl Calls {
    pub fn drawn(random: &mut Random) -> Self {
        // Few numbers collide, and more than eight fill a store.
        let most = random.pick(&[0, 1, 2, 3, 9, 9, 10, 12]);
        let mut numbers = vec![];
        while numbers.len() < most {
            let number = random.bits() as u8;
            let edge = random.pick(&[0, 1, 254, 255]);
            let number = if random.one_in(4) { edge } else { number };
            if !numbers.contains(&number) {
                numbers.push(number);
            }
        }
        let mut runs = vec![run_that_begins(random)];
        let more = random.below(4);
        runs.extend((0..more).map(|_| short_run(random)));
        Self {
            numbers,
            runs,
            kept: BTreeMap::new(),
            left: random.within(1, MOST_CALLS),
            keeps: random.pick(&[20, 40, 70]),
        }
    }

    /// The next call of the list.
    pub fn next(&mut self, random: &mut Random) -> Option<Call> {
        self.left = self.left.checked_sub(1)?;
        Some(match random.below(100) {
            0 => Call::Empty,
            1..=10 => Call::Forget(self.number(random)),
            drawn if drawn <= 10 + self.keeps => {
                let run = self.run_to_keep(random);
                Call::Keep(self.any_number(random), Box::new(run))
            }
            _ => {
                let number = self.number(random);
                Call::GoOn(number, Box::new(self.run_to_bring(number, random)))
            }
        })
    }

    /// Takes notice of a call and of the number of its refusal.
    pub fn note(&mut self, call: &Call, refusal: u64) {
        match call {
            Call::Empty => self.kept.clear(),
            Call::Keep(number, run) if refusal == 0 => {
                self.kept.insert(*number, Run::clone(run));
            }
            Call::Forget(number) => {
                self.kept.remove(number);
            }
            _ => {}
        }
    }

    fn any_number(&self, random: &mut Random) -> u8 {
        match self.numbers.len() {
            0 => random.bits() as u8,
            some => self.numbers[random.size_below(some)],
        }
    }

    /// Mostly one that is kept.
    fn number(&self, random: &mut Random) -> u8 {
        let any = self.any_number(random);
        if self.kept.is_empty() || random.one_in(8) {
            return any;
        }
        let at = random.size_below(self.kept.len());
        self.kept.keys().nth(at).copied().unwrap_or(any)
    }

    /// A run of a few windows; now and then one with failing tests.
    fn run_to_keep(&self, random: &mut Random) -> Run {
        if random.one_in(8) {
            return broken_runs::broken(random.below(broken_runs::PAIRS), random);
        }
        let run = &self.runs[random.size_below(self.runs.len())];
        let windows = random.within(1, 3);
        roomy(with_windows(run, windows), random)
    }

    /// What was kept, with windows of its own; now and then something else.
    fn run_to_bring(&self, number: u8, random: &mut Random) -> Run {
        let kept = self.kept.get(&number).filter(|_| !random.one_in(16));
        let Some(kept) = kept else {
            return foreign(&self.runs, random);
        };
        let later = random.within(1, 4);
        let run = roomy(with_windows(kept, later), random);
        match random.below(16) {
            0 => with_count(run, 0),
            1 | 2 => {
                let windows = windows_at_the_limit(kept.settings.windows, random);
                with_count(run, windows)
            }
            3 => shortened(run, random),
            4 | 5 => with_unused(run, random),
            6 => with_equal_steps(run),
            _ => run,
        }
    }
}

/// Equal steps in warm-up windows are the same setting, given or left out.
fn with_equal_steps(mut run: Run) -> Run {
    let settings = &mut run.settings;
    let steps = settings.steps_per_window;
    match settings.steps_per_transient_window {
        None => settings.steps_per_transient_window = Some(steps),
        Some(given) if given == steps => settings.steps_per_transient_window = None,
        Some(_) => {}
    }
    run
}

/// Whether no run or going on with it takes long: a count that is over the limit is refused.
fn is_short(run: &Run) -> bool {
    let settings = &run.settings;
    let within = |count: u64, most: u64| count <= most || count > MAX_COUNT;
    within(settings.steps_per_window, 16)
        && within(settings.transient_steps(), 16)
        && within(settings.windows, 16)
        && within(settings.transient_windows, 16)
}

/// A run that is short; in a few a window has some hundred steps, which become faint.
pub fn short_run(random: &mut Random) -> Run {
    if random.one_in(16) {
        return growing_later(random);
    }
    loop {
        let run = runs::run(random.below(1 << 20), random);
        let long_windows = run.settings.steps_per_window <= 600 && random.one_in(128);
        if is_short(&run) || long_windows {
            return run;
        }
    }
}

/// A short run whose first window is not refused, so that it can be kept.
fn run_that_begins(random: &mut Random) -> Run {
    loop {
        let run = short_run(random);
        if with_windows(&run, 1).model().number() == 0 {
            return run;
        }
    }
}

/// A Rössler system whose x and y grow from far below 1, while z rests. The direction of z grows by
/// more in each window than in the one before: first by less than the largest square, then at once by
/// more than the largest float, or nearly so, in the third window or in the fourth. In half of the
/// runs the first direction has no part in it.
fn growing_later(random: &mut Random) -> Run {
    // Powers of ten that were found by search.
    let (growth, size) = match random.one_in(3) {
        true => (10.5, random.between(-46.0, -43.0)),
        false => (random.between(12.5, 13.5), random.between(-28.0, -18.0)),
    };
    let circuit = Circuit::of(System::Rossler {
        a: 10_f64.powf(growth),
        b: 0.0,
        c: random.ordinary(),
    });
    let mut settings = Settings::new(1 + random.size_below(3), 1.0, 1, 3);
    settings.seed = match random.one_in(2) {
        true => seed_with_zero(random, 2),
        false => random.bits(),
    };
    let state = vec![random.power(size, size), random.power(size, size), 0.0];
    Run::fitting(circuit, settings, 0.0, state)
}

/// A run to be kept after some windows, and the later windows. Those may be none, or too many.
pub fn run_and_later(index: u64, random: &mut Random) -> (Run, u64) {
    let run = match random.one_in(8) {
        true => growing_later(random),
        false => runs::run(index, random),
    };
    let windows = random.within(1, 3);
    let later = match random.below(32) {
        0 => 0,
        1 => windows_over(windows, random),
        _ => random.within(1, 3),
    };
    (with_windows(&run, windows), later)
}

/// A run that was not kept: some other one of the list, or one with failing tests.
fn foreign(runs: &[Run], random: &mut Random) -> Run {
    let run = match random.below(2) {
        0 => broken_runs::broken(random.below(broken_runs::PAIRS), random),
        _ => runs[random.size_below(runs.len())].clone(),
    };
    if is_short(&run) {
        run
    } else {
        with_count(run, 0)
    }
}

/// The same run with so many windows, and outputs that just fit. Those of a run whose counts are
/// over stay: they are not looked at.
pub fn with_windows(run: &Run, windows: u64) -> Run {
    let mut run = run.clone();
    let (before, d) = (run.settings, run.circuit.dimension());
    run.settings.windows = windows;
    if run.rows >= before.rows_length() && run.settings.top_k <= 32 {
        run.rows = run.settings.rows_length();
    }
    if run.final_state >= d {
        run.final_state = d;
    }
    run
}

/// The same run and outputs, with so many windows.
fn with_count(mut run: Run, windows: u64) -> Run {
    run.settings.windows = windows;
    run
}

/// Windows with which all of them, after `earlier` ones, are at the limit or over it.
fn windows_at_the_limit(earlier: u64, random: &mut Random) -> u64 {
    match random.below(6) {
        0 => MAX_COUNT - earlier,
        _ => windows_over(earlier, random),
    }
}

/// Windows with which all of them, after `earlier` ones, are over the limit.
fn windows_over(earlier: u64, random: &mut Random) -> u64 {
    let (one, far) = (MAX_COUNT + 1 - earlier, settings::over(random));
    random.pick(&[one, one, MAX_COUNT, far, u64::MAX - earlier, u64::MAX])
}

/// The same run with one to three outputs that are one entry short.
pub fn shortened(mut run: Run, random: &mut Random) -> Run {
    let outputs = random.within(1, 7);
    if outputs & 1 == 1 {
        run.rows = run.settings.rows_length().saturating_sub(1);
    }
    if outputs & 2 == 2 {
        run.exponents = run.settings.top_k.saturating_sub(1);
    }
    if outputs & 4 == 4 {
        run.final_state = run.circuit.dimension().saturating_sub(1);
    }
    run
}

/// Sometimes with room to spare in the outputs.
pub fn roomy(mut run: Run, random: &mut Random) -> Run {
    if random.one_in(2) {
        run.rows += random.size_below(20);
        run.exponents += random.size_below(3);
        run.final_state += random.size_below(3);
    }
    run
}

/// The same system, handed over with other arguments where it reads none: a matrix among them, unless
/// it is linear.
fn with_unused(mut run: Run, random: &mut Random) -> Run {
    let length = random.size_below(10);
    let matrix = random.list(length, Random::any);
    let unused = Arguments {
        kind: 0,
        parameters: [random.any(), random.any(), random.any()],
        dimension: random.size_below(20),
        matrix: &matrix,
    };
    run.circuit = Circuit::of_arguments(Arguments::over(&run.circuit.system, unused));
    run
}

#[cfg(test)]
mod tests {
    use super::*;

    /// The calls of some lists, each keep of an accepted run taken notice of.
    fn drawn(lists: u64, mut see: impl FnMut(&Calls, &Call)) {
        let mut random = Random::seeded(5);
        for _ in 0..lists {
            let mut calls = Calls::drawn(&mut random);
            let mut made = 0;
            while let Some(call) = calls.next(&mut random) {
                made += 1;
                see(&calls, &call);
                let refusal = match &call {
                    Call::Keep(_, run) => run.model().number(),
                    _ => 0,
                };
                calls.note(&call, refusal);
            }
            assert!((1..=MOST_CALLS).contains(&made));
        }
    }

    #[test]
    fn no_going_on_is_long() {
        drawn(300, |_, call| {
            if let Call::GoOn(_, run) = call {
                let (steps, windows) = (run.settings.steps_per_window, run.settings.windows);
                let is_refused = steps > MAX_COUNT || windows == 0 || windows > 16;
                assert!(is_refused || steps <= 600, "{}", run.written());
            }
        });
    }

    #[test]
    fn what_is_brought_is_mostly_what_was_kept() {
        let (mut same, mut other) = (0, 0);
        drawn(300, |calls, call| {
            if let Call::GoOn(number, run) = call {
                let kept = calls.kept.get(number).map(|kept| &kept.circuit.system);
                match kept == Some(&run.circuit.system) {
                    true => same += 1,
                    false => other += 1,
                }
            }
        });
        assert!(same > other && other > 100, "{same} {other}");
    }

    #[test]
    fn windows_are_at_the_limit_or_over_it() {
        let mut random = Random::seeded(1);
        let (mut at, mut over) = (0, 0);
        for _ in 0..200 {
            let all = windows_at_the_limit(3, &mut random).saturating_add(3);
            assert!(all >= MAX_COUNT);
            at += u64::from(all == MAX_COUNT);
            over += u64::from(all == MAX_COUNT + 1);
            assert!(windows_over(3, &mut random).saturating_add(3) > MAX_COUNT);
        }
        assert!(at > 0 && over > 0);
    }
}
