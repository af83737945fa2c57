//! Lists of calls of a store, from an empty one on.

use super::events::{expected, Events};
use super::lists::{self, Met};
use super::Inputs;
use crate::cases::{difference, Call, Memory, Reference};
use crate::generate::stores::Calls;
use crate::random::Random;
use crate::values::Answer;
use oracle::Source;

pub fn stores(inputs: Inputs) -> bool {
    lists::compare("stores", inputs, &expected(), list).is_some()
}

/// Makes the calls of a list. An error is what differs, and the calls up to there as lines that can
/// be replayed.
fn list(source: Option<&dyn Source>, random: &mut Random, met: &mut Met) -> Result<(), String> {
    let mut calls = Calls::drawn(random);
    let (mut memory, mut reference) = (Memory::default(), Reference::default());
    let (mut events, mut made) = (Events::default(), vec![]);
    let mut next = Some(Call::Empty);
    while let Some(call) = next {
        met.calls += 1;
        let library = memory.answer(&call);
        let answers = reference.answers(&call, source);
        let model = answers.as_ref().map(|(model, _)| model);
        met.count(events.of(&call, model));
        calls.note(&call, model.map_or(0, Answer::number));
        let found = match &answers {
            Some((model, source)) => {
                met.by_source += u64::from(source.is_some());
                difference(library, model, source.as_ref())
            }
            None => library.err(),
        };
        made.push((call, answers.map(|(model, _)| model)));
        if let Some(difference) = found {
            return Err(format!("{difference}\n{}", lists::lines(&made)));
        }
        next = calls.next(random);
    }
    Ok(())
}
