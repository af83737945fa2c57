//! Calls of a dispatcher that may hold anything.

use super::store::stream;
use super::{any, run};
use crate::bytes::Bytes;
use crate::cases::difference;
use crate::cases::dispatcher::{Call, Lending, Memory, Reference};
use crate::cases::dispatcher::{IDLE, NOBODY, OVER, SETS, UNDER_WAY, UNFIT};
use crate::cases::Slices;
use crate::generate::dispatchers::Calls;
use crate::random::Random;
use crate::values::{Answer, Value, FILLING};
use input::MAX_COUNT;

/// The function of a dispatcher that the bytes call, and the number of its refusal, or what differs.
pub fn one(bytes: &mut Bytes) -> (&'static str, Result<u64, String>) {
    let (function, call) = match bytes.below(8) {
        0 => ("empty_dispatcher", Call::Empty),
        1 => ("next", Call::Next),
        2..=4 => ("hand_in", Call::HandIn(Box::new(run(bytes, |run| run)))),
        _ => ("turn", Call::Turn(Box::new(lending(bytes)))),
    };
    let compared = match bytes.below(4) {
        0 | 1 => after_a_list(bytes, call),
        2 => in_any_memory(any_memory(bytes.number()), &call),
        _ => near_memory(bytes).and_then(|memory| in_any_memory(memory, &call)),
    };
    (function, compared)
}

fn lending(bytes: &mut Bytes) -> Lending {
    let entries = bytes.below(17);
    let length = bytes.length(entries);
    Lending {
        set: bytes.below(SETS),
        fresh: true,
        matrix: bytes.floats(length),
        lengths: Slices {
            rows: bytes.length(66),
            exponents: bytes.length(16),
            final_state: bytes.length(16),
        },
    }
}

/// A dispatcher after a few calls, which are compared with the model.
struct Played {
    memory: Memory,
    reference: Reference,
    calls: Calls,
    random: Random,
}

impl Played {
    fn list(bytes: &mut Bytes) -> Result<Self, String> {
        let mut random = Random::seeded(bytes.number());
        let mut played = Self {
            memory: Memory::default(),
            reference: Reference::default(),
            calls: Calls::drawn(&mut random),
            random,
        };
        played.make(&Call::Empty)?;
        for _ in 0..bytes.below(16) {
            let in_front = played.reference.next();
            match played.calls.next(in_front, &mut played.random) {
                Some(call) => played.make(&call)?,
                None => break,
            };
        }
        Ok(played)
    }

    /// The number of the refusal, or how the library differs from the model.
    fn make(&mut self, call: &Call) -> Result<u64, String> {
        let (model, _) = self.reference.answers(call);
        self.calls.note(call, &model, &mut self.random);
        match difference(self.memory.answer(call), &model, None) {
            Some(difference) => Err(difference),
            None => Ok(model.number()),
        }
    }
}

/// The call of a dispatcher that calls made. What is lent is often what the run in front has.
fn after_a_list(bytes: &mut Bytes, call: Call) -> Result<u64, String> {
    let mut played = Played::list(bytes)?;
    let call = match call {
        Call::Turn(_) if bytes.below(4) > 0 => {
            let in_front = played.reference.next();
            played.calls.turn(in_front, &mut played.random)
        }
        other => other,
    };
    played.make(&call)
}

/// The call of a dispatcher that no call made. A hand-in answers what it always does, or 28; whose turn
/// it is, and what becomes of it, may be anything. What may be written is tested with the answer.
fn in_any_memory(mut memory: Memory, call: &Call) -> Result<u64, String> {
    let answer = memory.answer(call)?;
    let (number, name) = (answer.number(), answer.count("name"));
    let fits = match call {
        Call::Empty => true,
        Call::Next => name <= NOBODY,
        Call::HandIn(_) if number == 28 => answer.count("place") == 0 && name == NOBODY,
        Call::HandIn(_) => {
            let (model, _) = Reference::default().answers(call);
            let named = if number == 0 {
                name < NOBODY
            } else {
                name == NOBODY
            };
            named && model.only(&["num", "place"]).difference(&answer).is_none()
        }
        Call::Turn(_) => is_a_turn(&answer),
    };
    match fits {
        true => Ok(number),
        false => Err(format!("answered {}", answer.written())),
    }
}

/// Whether a turn is one of those that there are, and writes no more than it may.
fn is_a_turn(answer: &Answer) -> bool {
    let untouched = |name: &str| {
        let is_filling = |x: &f64| x.to_bits() == FILLING.to_bits();
        matches!(answer.get(name), Some(Value::Floats(list)) if list.iter().all(is_filling))
    };
    let ends_untouched = untouched("exps") && untouched("final");
    let (number, is_named) = (answer.number(), answer.count("name") < NOBODY);
    let Some(Value::Text(stage)) = answer.get("stage") else {
        return false;
    };
    match stage.as_str() {
        IDLE => {
            let nobody = (number, answer.count("name"), answer.count("begun"));
            nobody == (0, NOBODY, 0) && untouched("rows") && ends_untouched
        }
        UNFIT => [9, 13].contains(&number) && is_named && untouched("rows") && ends_untouched,
        UNDER_WAY => number == 0 && is_named && ends_untouched,
        OVER if number == 0 => is_named,
        _ => [14, 16, 17, 18].contains(&number) && is_named && ends_untouched,
    }
}

/// A dispatcher of random bits.
fn any_memory(seed: u64) -> Memory {
    let (mut next, mut memory) = (stream(seed), Memory::default());
    for at in 0..Memory::ENTRIES {
        memory.set(at, next());
    }
    memory
}

/// A dispatcher that calls made, of which some entries are then changed. No count becomes a large one
/// within the limit, so that no window is long.
fn near_memory(bytes: &mut Bytes) -> Result<Memory, String> {
    let mut memory = Played::list(bytes)?.memory;
    for _ in 0..1 + bytes.below(4) {
        // The last entries are those that say most.
        let from_end = bytes.number() as usize % [65, 256, Memory::ENTRIES][bytes.below(3)];
        let bits = match bytes.below(4) {
            0 | 1 => bytes.below(20) as u64,
            2 => [MAX_COUNT + 1, u64::MAX, 1 << 63, bytes.number()][bytes.below(4)],
            _ => any(bytes).to_bits(),
        };
        memory.set(Memory::ENTRIES - 1 - from_end, bits);
    }
    Ok(memory)
}
