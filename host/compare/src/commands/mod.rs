//! The commands. Each prints what it compared and answers whether nothing differed.

mod dispatch;
mod events;
mod fuzz;
mod leaves;
mod list;
mod lists;
mod many;
mod pairs;
mod replay;
mod stores;

pub use dispatch::dispatch;
pub use fuzz::{fuzz, Limits};
pub use leaves::leaves;
pub use list::write_list;
pub use many::{from_zero, orthonormalise, rates, runs, settings, step, validate};
pub use pairs::{dispatched_pairs, later_pairs, pairs};
pub use replay::replay;
pub use stores::stores;

use crate::circuit::Systems;
use crate::random::Random;
use crate::tally::Sizes;
use oracle::{Source, NOT_AVAILABLE};

/// How many inputs a comparison generates, the seed that they come from, and their systems.
#[derive(Clone, Copy, Debug)]
pub struct Inputs {
    pub count: u64,
    pub seed: u64,
    pub systems: Systems,
}

impl Inputs {
    fn random(&self) -> Random {
        Random::seeded(self.seed)
            .with(self.systems)
            .with_warm_up_steps()
    }

    /// Whether inputs of one kind had every size that it can have.
    fn covered_by(&self, sizes: &Sizes) -> bool {
        let kind = self.systems.kind();
        kind.is_none_or(|kind| sizes.covers(self.count, &kind.dimensions))
    }
}

/// Differences that are printed in full; the rest is only counted.
const PRINTED: u64 = 5;

/// Counts differences and prints the first few.
#[derive(Default)]
struct Differences {
    count: u64,
}

impl Differences {
    fn add(&mut self, text: impl FnOnce() -> String) {
        self.count += 1;
        if self.count <= PRINTED {
            println!("{}", text());
        }
    }
}

/// The source, or a line that says that it is not at hand.
fn source() -> Option<&'static dyn Source> {
    let source = oracle::source();
    if source.is_none() {
        println!("{NOT_AVAILABLE}: the comparison with the Rust is left out");
    }
    source
}
