//! Lists of calls of a dispatcher, from an empty one on.

mod events;
mod fairness;

use super::lists::{self, Met};
use super::Inputs;
use crate::cases::dispatcher::{Call, Memory, Reference};
use crate::cases::{difference, Called, Case, Run};
use crate::circuit::{KINDS, LINEAR};
use crate::generate::dispatchers::Calls;
use crate::random::Random;
use crate::values::Answer;
use events::{expected, Events};
use fairness::Turns;
use oracle::Source;

pub fn dispatch(inputs: Inputs) -> bool {
    let sizes = &KINDS[LINEAR as usize].dimensions;
    let met = lists::compare("dispatch", inputs, &expected(), list);
    met.is_some_and(|met| met.sizes.covers(inputs.count, sizes))
}

/// Makes the calls of a list. An error is what differs, and the calls up to there as lines that can
/// be replayed.
fn list(source: Option<&dyn Source>, random: &mut Random, met: &mut Met) -> Result<(), String> {
    let mut calls = Calls::drawn(random);
    let (mut memory, mut reference) = (Memory::default(), Reference::default());
    let (mut events, mut turns, mut made) = (Events::default(), Turns::default(), vec![]);
    let mut next = Some(Call::Empty);
    while let Some(call) = next {
        met.calls += 1;
        let library = memory.answer(&call);
        let (model, alone) = reference.answers(&call);
        met.count(events.of(&call, &model, alone.as_ref()));
        let by_source = by_source(&call, alone.as_ref(), source);
        met.by_source += u64::from(by_source.is_some());
        if let Some(size) = ended(&model, alone.as_ref()) {
            met.sizes.count(size);
        }
        calls.note(&call, &model, random);
        let found = difference(library, &model, by_source.as_ref())
            .or_else(|| from_alone(&call, &model, alone.as_ref()))
            .or_else(|| turns.unfair(&call, &model));
        made.push((call, Some(model)));
        if let Some(difference) = found {
            return Err(format!("{difference}\n{}", lists::lines(&made)));
        }
        next = calls.next(reference.next(), random);
    }
    Ok(())
}

/// What the source answers to the run alone.
fn by_source(call: &Call, alone: Option<&Run>, source: Option<&dyn Source>) -> Option<Answer> {
    let (run, source) = alone.zip(source)?;
    let answer = run.source(source)?;
    Some(call.part_of(answer))
}

/// How the answer differs from that of the library's run alone.
fn from_alone(call: &Call, answer: &Answer, alone: Option<&Run>) -> Option<String> {
    let found = match alone?.library() {
        Ok(alone) => call.part_of(alone).difference(answer)?,
        Err(memory) => memory,
    };
    Some(format!("against the run alone: {found}"))
}

/// The size of a run that ended and was not refused.
fn ended(answer: &Answer, alone: Option<&Run>) -> Option<(usize, usize)> {
    alone.filter(|_| answer.number() == 0)?.size()
}
