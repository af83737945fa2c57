//! Counts of what a comparison met, by label.

use std::collections::BTreeMap;
use std::ops::RangeInclusive;

/// From this many inputs on, a comparison must have met every label that it names.
pub const ENOUGH: u64 = 20_000;

#[derive(Default)]
pub struct Tally {
    counts: BTreeMap<(u64, String), u64>,
}

impl Tally {
    /// Counts an answer with the refusal `number` under a label that says more.
    pub fn count(&mut self, number: u64, more: &str) {
        *self.counts.entry((number, more.to_string())).or_default() += 1;
    }

    pub fn of(&self, number: u64, more: &str) -> u64 {
        let key = (number, more.to_string());
        self.counts.get(&key).copied().unwrap_or(0)
    }

    pub fn print(&self) {
        for ((number, more), count) in &self.counts {
            println!("  {}{more}: {count}", name(*number));
        }
    }

    /// Prints the expected labels that were not met in `inputs` inputs; answers whether all were.
    pub fn covers(&self, inputs: u64, expected: &[(u64, &str)]) -> bool {
        let missing = |(number, more): &&(u64, &str)| self.of(*number, more) == 0;
        let mut covered = true;
        for (number, more) in expected.iter().filter(missing) {
            if inputs >= ENOUGH {
                println!("  not met: {}{more}", name(*number));
                covered = false;
            }
        }
        covered
    }
}

/// Counts of the inputs that were not refused, by dimension and number of directions.
#[derive(Default)]
pub struct Sizes {
    counts: BTreeMap<(usize, usize), u64>,
}

impl Sizes {
    pub fn count(&mut self, size: (usize, usize)) {
        *self.counts.entry(size).or_default() += 1;
    }

    /// Prints how many of the sizes were met, with d of `dimensions` and 1 to d directions; answers
    /// whether all were, as far as `inputs` are enough.
    pub fn covers(&self, inputs: u64, dimensions: &RangeInclusive<usize>) -> bool {
        let sizes = dimensions
            .clone()
            .flat_map(|d| (1..=d).map(move |k| (d, k)));
        let counts = sizes.map(|size| self.counts.get(&size).copied().unwrap_or(0));
        let counts: Vec<u64> = counts.collect();
        let (all, met) = (counts.len(), counts.iter().filter(|n| **n > 0).count());
        let least = counts.iter().min().copied().unwrap_or(0);
        let (low, high) = (dimensions.start(), dimensions.end());
        println!(
            "  {met} of {all} sizes met, d from {low} to {high} with 1 to d directions, each at \
             least {least} times"
        );
        met == all || inputs < ENOUGH
    }
}

fn name(number: u64) -> String {
    match number {
        0 => "not refused".to_string(),
        _ => format!("refused by {number}"),
    }
}

#[cfg(test)]
mod tests {
    use super::*;

    #[test]
    fn labels_that_were_not_met_are_found() {
        let mut tally = Tally::default();
        tally.count(14, " at the draw");
        assert_eq!(tally.of(14, " at the draw"), 1);
        assert!(tally.covers(ENOUGH, &[(14, " at the draw")]));
        assert!(!tally.covers(ENOUGH, &[(14, "")]));
        assert!(tally.covers(ENOUGH - 1, &[(14, "")]));
    }

    #[test]
    fn sizes_that_were_not_met_are_found() {
        let mut sizes = Sizes::default();
        for size in [(1, 1), (2, 1), (2, 3)] {
            sizes.count(size);
        }
        assert!(sizes.covers(ENOUGH, &(1..=1)));
        assert!(!sizes.covers(ENOUGH, &(1..=2)));
        assert!(sizes.covers(ENOUGH - 1, &(1..=2)));
        sizes.count((2, 2));
        assert!(sizes.covers(ENOUGH, &(1..=2)));
    }
}
