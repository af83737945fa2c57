//! Lists of calls, each from an empty store or dispatcher on.

use super::{source, Differences, Inputs};
use crate::cases::Listed;
use crate::random::Random;
use crate::tally::{Sizes, Tally};
use crate::values::Answer;
use oracle::Source;

/// A number of a refusal, and what the call was.
pub type Label = (u64, String);

/// What lists have met.
#[derive(Default)]
pub struct Met {
    tally: Tally,
    /// Of runs that ended, where they are counted.
    pub sizes: Sizes,
    pub calls: u64,
    pub by_source: u64,
}

impl Met {
    pub fn count(&mut self, labels: Vec<Label>) {
        for (number, label) in labels {
            self.tally.count(number, &label);
        }
    }
}

/// Makes lists by `list`, whose error is what differs, with the calls up to there. Prints what they
/// met; answers it where it is all that is `expected`, and nothing differs.
pub fn compare(
    name: &str,
    inputs: Inputs,
    expected: &[Label],
    list: impl Fn(Option<&dyn Source>, &mut Random, &mut Met) -> Result<(), String>,
) -> Option<Met> {
    let reference = source();
    let mut random = inputs.random();
    let (mut met, mut differences) = (Met::default(), Differences::default());
    for index in 0..inputs.count {
        if let Err(text) = list(reference, &mut random, &mut met) {
            differences.add(|| format!("list {index}: {text}"));
        }
    }
    met.tally.print();
    println!(
        "{name}: {} lists, {} calls against the model, {} of them against the source, {} lists differ",
        inputs.count, met.calls, met.by_source, differences.count
    );
    let expected: Vec<_> = expected.iter().map(|(n, label)| (*n, &label[..])).collect();
    let agree = met.tally.covers(inputs.count, &expected) && differences.count == 0;
    agree.then_some(met)
}

/// The calls of a list with their answers, as lines that can be replayed. A call whose answer is free
/// changes nothing, and is left out.
pub fn lines<C: Listed>(made: &[(C, Option<Answer>)]) -> String {
    let mut lines = vec![];
    for (index, (call, answer)) in made.iter().enumerate() {
        if let Some(answer) = answer {
            lines.push(call.line(&format!("call{index}"), answer, "by the model"));
        }
    }
    lines.join("\n")
}
