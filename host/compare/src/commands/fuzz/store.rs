//! Calls of a store that may hold anything.

use super::run;
use crate::bytes::Bytes;
use crate::cases::{difference, Call, Case, Memory, Reference, Run};
use crate::values::Answer;
use input::{Refusal, MAX_COUNT};
use lyapunov_sys::{STORE_COUNTS, STORE_FLOATS, STORE_STATES};

/// The function of a store that the bytes call, and the number of its refusal, or what differs.
pub fn one(bytes: &mut Bytes) -> (&'static str, Result<u64, String>) {
    let (function, call) = match bytes.below(7) {
        0 => ("empty_store", Call::Empty),
        1 => ("forget", Call::Forget(number(bytes))),
        2 | 3 => ("keep", Call::Keep(number(bytes), any_run(bytes))),
        _ => ("go_on", Call::GoOn(number(bytes), any_run(bytes))),
    };
    let compared = match bytes.below(4) {
        0 | 1 => after_a_keep(bytes, &call),
        2 => in_any_memory(&mut any_memory(bytes.number()), &call),
        _ => in_any_memory(&mut near_memory(bytes.number()), &call),
    };
    (function, compared)
}

/// Mostly one of few, so that it is often known.
fn number(bytes: &mut Bytes) -> u8 {
    match bytes.below(8) {
        0 => bytes.byte(),
        1 => 255,
        _ => bytes.byte() % 3,
    }
}

fn any_run(bytes: &mut Bytes) -> Box<Run> {
    Box::new(run(bytes, |run| run))
}

/// The call of a store that was emptied and kept a run. What goes on is often that run.
fn after_a_keep(bytes: &mut Bytes, call: &Call) -> Result<u64, String> {
    let (mut memory, mut reference) = (Memory::default(), Reference::default());
    let keep = match call {
        Call::GoOn(_, run) if bytes.below(4) > 0 => earlier(bytes, run),
        _ => any_run(bytes),
    };
    let to = match call {
        Call::Keep(number, _) | Call::GoOn(number, _) | Call::Forget(number) => *number,
        Call::Empty => 0,
    };
    let other = number(bytes);
    let keep = Call::Keep(if bytes.below(8) > 0 { to } else { other }, keep);
    let mut answered = 0;
    for call in [&Call::Empty, &keep, call] {
        let library = memory.answer(call);
        match reference.answers(call, None) {
            Some((model, _)) => {
                answered = model.number();
                difference(library, &model, None).map_or(Ok(()), Err)?;
            }
            None => answered = library?.number(),
        }
    }
    Ok(answered)
}

/// The same run with few windows, unless it would be long then.
fn earlier(bytes: &mut Bytes, run: &Run) -> Box<Run> {
    let mut run = run.clone();
    let settings = &run.settings;
    let steps = settings.steps_per_window.max(settings.transient_steps());
    if steps.max(settings.transient_windows) < MAX_COUNT {
        run.settings.windows = 1 + bytes.below(4) as u64;
        run.rows = bytes.length(run.settings.rows_length());
    }
    Box::new(run)
}

/// The call of a store that no call made. A keep is the run that it always is, or refused by 27; a
/// going on and a forgetting may find anything.
fn in_any_memory(memory: &mut Memory, call: &Call) -> Result<u64, String> {
    let library = memory.answer(call)?;
    let number = library.number();
    let model = match (call, number) {
        (Call::Empty, _) => Answer::default(),
        (Call::Keep(_, run), 27) | (Call::GoOn(_, run), 26) => {
            run.answer_untouched(Refusal::of(number))
        }
        (Call::Keep(_, run), _) => run.model(),
        (Call::Forget(_), 0 | 26) => Answer::refusal(Refusal::of(number)),
        (Call::GoOn(..), 0..=18 | 25 | 29) => return Ok(number),
        _ => return Err(format!("refused by {number}")),
    };
    difference(Ok(library), &model, None).map_or(Ok(number), Err)
}

/// A stream of numbers from a seed.
pub fn stream(seed: u64) -> impl FnMut() -> u64 {
    let mut state = seed;
    move || {
        let (next, output) = model::splitmix64(state);
        state = next;
        output
    }
}

/// A store of random bits.
fn any_memory(seed: u64) -> Memory {
    let mut next = stream(seed);
    let floats = [(); STORE_FLOATS].map(|()| f64::from_bits(next()));
    Memory::of(&floats, &[(); STORE_COUNTS].map(|()| next()))
}

/// A store that might have been made by calls: known numbers, few windows and small floats, in most
/// of its places.
fn near_memory(seed: u64) -> Memory {
    let mut next = stream(seed);
    let floats = [(); STORE_FLOATS].map(|()| match next() % 64 {
        0 => f64::from_bits(next()),
        _ => model::symmetric_unit(next()),
    });
    let mut counts = [(); STORE_COUNTS].map(|()| next() % 8);
    for place in counts.chunks_mut(STORE_COUNTS / STORE_STATES) {
        let tags = [0, 1, 1, 2, 3, 256, 257, u64::MAX];
        let windows = [
            0,
            1,
            2,
            3,
            MAX_COUNT - 1,
            MAX_COUNT,
            MAX_COUNT + 1,
            u64::MAX,
        ];
        place[0] = tags[next() as usize % tags.len()];
        place[1] = windows[next() as usize % windows.len()];
    }
    Memory::of(&floats, &counts)
}
