//! Settings.

use super::bad_step_size;
use crate::random::Random;
use input::{Settings, MAX_COUNT};

/// Settings of a short run.
pub fn short(random: &mut Random, top_k: usize, step_size: f64) -> Settings {
    let (steps, windows) = (random.within(1, 6), random.within(1, 4));
    let mut settings = Settings::new(top_k, step_size, steps, windows);
    settings.transient_windows = random.below(3);
    settings.seed = random.bits();
    settings.steps_per_transient_window =
        warm_up_steps(random, steps, |random| random.within(1, 6));
    settings
}

/// The steps of a warm-up window, where they are drawn: left out, given as those of a measured one, or
/// others.
fn warm_up_steps(
    random: &mut Random,
    steps: u64,
    others: impl FnOnce(&mut Random) -> u64,
) -> Option<u64> {
    if !random.warm_up_steps {
        return None;
    }
    match random.below(8) {
        0..=2 => None,
        3 => Some(steps),
        _ => Some(others(random)),
    }
}

/// A count that is over its limit.
pub fn over(random: &mut Random) -> u64 {
    random.pick(&[MAX_COUNT + 1, MAX_COUNT + 2, 1 << 32, 1 << 63, u64::MAX])
}

/// Settings to be built, which may fail any of the tests 1 to 5.
pub fn any(random: &mut Random) -> Settings {
    let count = |random: &mut Random| match random.below(6) {
        0 => 0,
        1 => MAX_COUNT,
        2 => over(random),
        _ => random.within(1, 100),
    };
    let (steps, windows, transient_windows) = (count(random), count(random), count(random));
    let top_k = random.pick(&[0, 1, 2, 3, 16, 17, usize::MAX]);
    let step_size = if random.one_in(4) {
        bad_step_size(random)
    } else {
        random.pick(&[f64::from_bits(1), 0.01, 1.0, 1e308, f64::MAX])
    };
    let mut settings = Settings::new(top_k, step_size, steps, windows);
    settings.transient_windows = transient_windows;
    settings.seed = random.bits();
    settings.steps_per_transient_window = warm_up_steps(random, steps, count);
    settings
}
