//! Counts at their limit and over it: steps, windows, warm-up and its steps in every combination.

use super::circuits::linear;
use super::{edges, runs, settings};
use crate::cases::Run;
use crate::random::Random;
use input::{Settings, MAX_COUNT};

/// Labels of the counts that are over, by a bit for each: 1 steps, 2 windows, 4 warm-up, 8 the steps
/// of a warm-up window where they are given.
pub const OVER: [&str; 16] = [
    ", no count over",
    ", steps over",
    ", windows over",
    ", steps and windows over",
    ", warm-up over",
    ", steps and warm-up over",
    ", windows and warm-up over",
    ", steps and windows and warm-up over",
    ", warm-up steps over",
    ", steps and warm-up steps over",
    ", windows and warm-up steps over",
    ", steps and windows and warm-up steps over",
    ", warm-up and warm-up steps over",
    ", steps and warm-up and warm-up steps over",
    ", windows and warm-up and warm-up steps over",
    ", all counts over",
];

fn counts(settings: &Settings) -> [u64; 4] {
    let (steps, windows) = (settings.steps_per_window, settings.windows);
    let warm_up_steps = settings.steps_per_transient_window.unwrap_or(0);
    [steps, windows, settings.transient_windows, warm_up_steps]
}

/// The label of the counts of `settings` that are over.
pub fn label(settings: &Settings) -> &'static str {
    let over = counts(settings).map(|count| usize::from(count > MAX_COUNT));
    OVER[over[0] + 2 * over[1] + 4 * over[2] + 8 * over[3]]
}

/// One in so many inputs of a comparison has the next combination.
const EVERY: u64 = 32;

/// The combination `number` of 256: each count stays as it is, is at the limit, one above it, or is
/// `far` above it. In the first 64 the steps of a warm-up window stay as they are, and may be left out.
pub fn combined(mut settings: Settings, number: u64, far: u64) -> Settings {
    if !(number / 64).is_multiple_of(4) {
        settings.steps_per_transient_window = Some(0);
    }
    let counts = [
        &mut settings.steps_per_window,
        &mut settings.windows,
        &mut settings.transient_windows,
    ];
    let given = settings.steps_per_transient_window.as_mut();
    for (i, count) in counts.into_iter().chain(given).enumerate() {
        let choices = [*count, MAX_COUNT, MAX_COUNT + 1, far];
        *count = choices[(number >> (2 * i)) as usize % 4];
    }
    settings
}

/// The combination whose turn is at `index`.
fn in_turn(settings: Settings, index: u64, random: &mut Random) -> Settings {
    let far = random.pick(&[1 << 32, 1 << 63, u64::MAX]);
    combined(settings, index / EVERY, far)
}

/// The settings at `index`, to be built.
pub fn settings(index: u64, random: &mut Random) -> Settings {
    if !index.is_multiple_of(EVERY) {
        return settings::any(random);
    }
    let top_k = random.pick(&[1, 2, 16, 17, usize::MAX]);
    let short = settings::short(random, top_k, 0.01);
    in_turn(short, index, random)
}

/// The run at `index`. No long one is made: where neither steps nor windows are over, 11 refuses,
/// also in `estimate_largest`, which has no warm-up windows.
pub fn run(index: u64, random: &mut Random) -> Run {
    let mut run = runs::run(index, random);
    if index.is_multiple_of(EVERY) {
        run.settings = in_turn(run.settings, index, random);
        if run.settings.steps_per_window.max(run.settings.windows) <= MAX_COUNT {
            run.state[0] = random.not_finite();
        }
    }
    run
}

/// Settings with each count at the limit or over it, by one and by the most, and a remark on them.
/// The steps of a warm-up window are left out.
pub fn at_limit() -> Vec<(Settings, String)> {
    let no_count_over = ordinary_steps(0, MAX_COUNT);
    let mut all = vec![(no_count_over, format!("at the limit{}", OVER[0]))];
    all.extend(over_limit(1..8, ordinary_steps));
    all
}

/// The same with steps of a warm-up window that are given: at the limit, and over it as well.
pub fn at_limit_with_warm_up_steps() -> Vec<(Settings, String)> {
    let no_count_over = given_steps(0, MAX_COUNT);
    let remark = format!("warm-up steps given, at the limit{}", OVER[0]);
    let mut all = vec![(no_count_over, remark)];
    all.extend(over_limit(8..16, given_steps));
    all
}

/// Those whose counts with a bit in `over` are over the limit by one, then by the most.
fn over_limit(
    over: std::ops::Range<usize>,
    settings: fn(usize, u64) -> Settings,
) -> impl Iterator<Item = (Settings, String)> {
    let by = [
        (MAX_COUNT + 1, "one above the limit"),
        (u64::MAX, "the largest number"),
    ];
    by.into_iter().flat_map(move |(by, how)| {
        let each = over.clone();
        each.map(move |over| (settings(over, by), format!("{how}{}", OVER[over])))
    })
}

/// Settings whose counts with a bit in `over` are `by`, and the others at the limit.
fn ordinary_steps(over: usize, by: u64) -> Settings {
    let count = |i: usize| if over >> i & 1 == 1 { by } else { MAX_COUNT };
    let mut settings = Settings::new(1, 1.0, count(0), count(1));
    settings.transient_windows = count(2);
    settings
}

/// The same with the steps of a warm-up window.
fn given_steps(over: usize, by: u64) -> Settings {
    let mut settings = ordinary_steps(over, by);
    settings.steps_per_transient_window = Some(if over >= 8 { by } else { MAX_COUNT });
    settings
}

/// A run of a system at rest, from `time`. Its outputs are for one window.
pub fn run_at_rest(settings: Settings, time: f64) -> Run {
    let one_window = edges::settings(settings.top_k, settings.step_size);
    let mut run = Run::fitting(linear(1, vec![0.0]), one_window, time, vec![0.0]);
    run.settings = settings;
    run
}

#[cfg(test)]
mod tests {
    use super::*;
    use crate::cases::{Build, Case};
    use std::collections::BTreeSet;

    /// As many inputs as give each combination its turn.
    const ALL: std::ops::Range<u64> = 0..256 * EVERY;

    /// Of small or left out, at the limit, one above it and more for each count, those with a count
    /// over.
    const REFUSED: usize = 4 * 4 * 4 * 4 - 2 * 2 * 2 * 2;

    fn random() -> Random {
        Random::seeded(1).with_warm_up_steps()
    }

    /// How many combinations are among the settings that are refused by 5.
    fn refused(inputs: impl Iterator<Item = (Settings, u64)>) -> usize {
        let marks = [16_777_216, 16_777_217, 16_777_218];
        let stand = |count: u64| marks.iter().filter(|mark| count >= **mark).count();
        let by_5 = inputs.filter(|(_, number)| *number == 5);
        let met = by_5.map(|(settings, _)| counts(&settings).map(stand));
        met.collect::<BTreeSet<_>>().len()
    }

    #[test]
    fn every_combination_is_built_and_run() {
        let mut random = random();
        let built = ALL.map(|index| Build(settings(index, &mut random)));
        let built = built.map(|build| (build.0, build.model().number()));
        assert_eq!(refused(built), REFUSED);
        let runs = ALL.map(|index| run(index, &mut random));
        let runs = runs.map(|run| (run.settings, run.model().number()));
        assert_eq!(refused(runs), REFUSED);
    }

    #[test]
    fn no_run_with_a_combination_makes_a_step() {
        let mut random = random();
        for index in ALL.step_by(EVERY as usize) {
            let run = run(index, &mut random);
            for run in [run.clone().at_zero(), run.clone().largest(), run] {
                let number = run.model().number();
                assert!([5, 11].contains(&number), "{number}: {}", run.written());
            }
        }
    }

    #[test]
    fn labels_say_which_counts_are_over() {
        for number in 0..256 {
            let settings = combined(Settings::new(1, 1.0, 1, 1), number, u64::MAX);
            let names = ["steps", "windows", "warm-up", "warm-up steps"];
            let counts = counts(&settings).into_iter().zip(names);
            let over = counts.filter(|(count, _)| *count > 16_777_216);
            let over: Vec<_> = over.map(|(_, name)| name).collect();
            let expected = match over.len() {
                0 => "no count".to_string(),
                4 => "all counts".to_string(),
                _ => over.join(" and "),
            };
            assert_eq!(label(&settings), format!(", {expected} over"));
        }
    }

    #[test]
    fn each_edge_stands_once() {
        let mut edges = at_limit();
        edges.extend(at_limit_with_warm_up_steps());
        let different: BTreeSet<_> = edges.iter().map(|(_, remark)| remark).collect();
        assert_eq!((edges.len(), different.len()), (32, 32));
        for (settings, remark) in &edges {
            assert!(remark.ends_with(label(settings)), "{remark}");
        }
    }
}
