//! The library's dispatcher, which is lent with borders. After each call it is tested that only what
//! may change did.

use super::{answer_of_hand_in, answer_of_next};
use super::{Call, Lending, Turned, OVER, STAGES, UNDER_WAY};
use crate::cases::{Listed, Outcome, Run, Slices};
use crate::lent::{Entry, Lent, FILLING};
use crate::values::Answer;
use input::Refusal;
use lyapunov_sys::{
    DispatcherMut, StoreMut, DISPATCHER_QUEUE, DISPATCHER_SETTINGS, STORE_COUNTS, STORE_FLOATS,
};
use std::collections::BTreeMap;

/// The four arrays.
const NAMES: [&str; 4] = ["run_floats", "run_counts", "run_settings", "queue"];

/// The dispatcher, and the sets of outputs that are lent with its turns.
pub struct Memory {
    floats: Lent<f64>,
    counts: Lent<u64>,
    settings: Lent<f64>,
    queue: Lent<u64>,
    sets: BTreeMap<usize, Slices<Lent<f64>>>,
}

/// All of a dispatcher, floats by their bits.
type Content = [Vec<u64>; 4];

impl Default for Memory {
    /// A dispatcher that holds what nobody set, to be emptied.
    fn default() -> Self {
        let mut memory = Self {
            floats: Lent::input(NAMES[0], &[FILLING; STORE_FLOATS]),
            counts: Lent::output(NAMES[1], STORE_COUNTS),
            settings: Lent::input(NAMES[2], &[FILLING; DISPATCHER_SETTINGS]),
            queue: Lent::output(NAMES[3], DISPATCHER_QUEUE),
            sets: BTreeMap::new(),
        };
        memory.counts.slice_mut().fill(u64::MAX);
        memory.queue.slice_mut().fill(u64::MAX);
        memory
    }
}

impl Memory {
    /// The number of entries of all arrays together.
    pub const ENTRIES: usize = STORE_FLOATS + STORE_COUNTS + DISPATCHER_SETTINGS + DISPATCHER_QUEUE;

    /// Changes an entry, counted through all arrays.
    pub fn set(&mut self, mut at: usize, bits: u64) {
        for floats in [self.floats.slice_mut(), self.settings.slice_mut()] {
            if let Some(entry) = floats.get_mut(at) {
                *entry = f64::from_bits(bits);
                return;
            }
            at -= floats.len();
        }
        let counts = self.counts.slice_mut().iter_mut();
        let mut counts = counts.chain(self.queue.slice_mut());
        if let Some(entry) = counts.nth(at) {
            *entry = bits;
        }
    }

    /// What the library answers. An error is memory that it must not write.
    pub fn answer(&mut self, call: &Call) -> Result<Answer, String> {
        let before = self.content()?;
        let answer = self.called(call)?;
        changed_as_it_may(call, &answer, &before, &self.content()?)?;
        Ok(answer)
    }

    fn called(&mut self, call: &Call) -> Result<Answer, String> {
        match call {
            Call::Empty => {
                lyapunov_sys::empty_dispatcher(self.queue.array_mut());
                Ok(Answer::default())
            }
            Call::HandIn(run) => {
                let (refusal, name) = self.handed_in(run)?;
                Ok(answer_of_hand_in(refusal, name))
            }
            Call::Next => Ok(answer_of_next(self.next())),
            Call::Turn(lending) => Ok(self.turned(lending)?.answer()),
        }
    }

    /// Whose turn is next.
    pub fn next(&self) -> u64 {
        lyapunov_sys::next(self.queue.array())
    }

    /// The library's hand-in: why it is refused, and the name.
    pub fn handed_in(&mut self, run: &Run) -> Result<(Refusal, u64), String> {
        let state = Lent::input("x0", &run.state);
        let mut name = Lent::<u64>::output("name", 1);
        let [to] = name.array_mut();
        let (system, settings) = (run.circuit.arguments(), &run.settings);
        let (dispatcher, _) = self.lent();
        let refusal =
            lyapunov_sys::hand_in(dispatcher, system, run.time, state.slice(), settings, to);
        state.unchanged(&run.state)?;
        Ok((refusal, name.returned()?[0]))
    }

    /// The library's turn.
    pub fn turned(&mut self, lending: &Lending) -> Result<Turned, String> {
        let (dispatcher, sets) = self.lent();
        if lending.fresh {
            sets.remove(&lending.set);
        }
        let set = sets.entry(lending.set);
        let set = set.or_insert_with(|| lending.lengths.lent());
        let matrix = Lent::input("mat", &lending.matrix);
        let mut event = Lent::<u64>::output("event", 4);
        let to = event.array_mut();
        let outcome =
            set.to(|outputs| lyapunov_sys::turn(dispatcher, matrix.slice(), outputs, to))?;
        matrix.unchanged(&lending.matrix)?;
        event.returned()?;
        turned(*event.array(), outcome)
    }

    /// Whether there is what a turn is to be lent.
    pub fn lends(&self, lending: &Lending) -> bool {
        let set = self.sets.get(&lending.set);
        lending.fresh || set.is_some_and(|set| set.lengths() == lending.lengths)
    }

    fn lent(&mut self) -> (DispatcherMut<'_>, &mut BTreeMap<usize, Slices<Lent<f64>>>) {
        let dispatcher = DispatcherMut {
            runs: StoreMut {
                floats: self.floats.array_mut(),
                counts: self.counts.array_mut(),
            },
            settings: self.settings.array_mut(),
            queue: self.queue.array_mut(),
        };
        (dispatcher, &mut self.sets)
    }

    fn content(&self) -> Result<Content, String> {
        let bits = |floats: &Lent<f64>| -> Result<Vec<u64>, String> {
            Ok(floats.returned()?.into_iter().map(f64::to_bits).collect())
        };
        let (floats, settings) = (bits(&self.floats)?, bits(&self.settings)?);
        let (counts, queue) = (self.counts.returned()?, self.queue.returned()?);
        Ok([floats, counts, settings, queue])
    }
}

/// What a turn left that says `event`. Counts and times are written where the run is over, and only
/// there. The place of a refusal stands in them then, and else in the event.
fn turned(event: [u64; 4], outcome: Outcome) -> Result<Turned, String> {
    let [stage, name, begun, place] = event;
    let known = usize::try_from(stage).ok().and_then(|at| STAGES.get(at));
    let stage = *known.ok_or_else(|| format!("no stage {stage}"))?;
    let outcome = match (stage, place) {
        (OVER, 0) => outcome,
        (OVER, _) => return Err(format!("place {place} in the event of a run that is over")),
        _ => {
            is_unwritten(&outcome)?;
            let refusal = Refusal::at(outcome.refusal.number, place);
            Outcome::untouched(refusal, outcome.slices())
        }
    };
    Ok(Turned {
        stage,
        name,
        begun,
        outcome,
    })
}

fn is_unwritten(outcome: &Outcome) -> Result<(), String> {
    let counts = [outcome.refusal.place, outcome.finished, outcome.steps];
    let mut counts = counts.iter().chain(&outcome.faint);
    let times = [outcome.final_time, outcome.measured_time];
    let unwritten = counts.all(|count| *count == u64::FILLING)
        && times.iter().all(|time| time.to_bits() == FILLING.to_bits());
    match unwritten {
        true => Ok(()),
        false => Err("counts or times were written of a run that is not over".to_string()),
    }
}

/// Emptying clears the queue. A hand-in that is not refused may write all arrays, a turn that is spent
/// all but the settings, and nothing else writes any.
fn changed_as_it_may(
    call: &Call,
    answer: &Answer,
    before: &Content,
    after: &Content,
) -> Result<(), String> {
    let is_spent = [UNDER_WAY, OVER].map(|stage| answer.is("stage", stage)) != [false; 2];
    let may: [bool; 4] = match call {
        Call::Empty => [false, false, false, true],
        Call::HandIn(_) => [answer.number() == 0; 4],
        Call::Next => [false; 4],
        Call::Turn(_) => [is_spent, is_spent, false, is_spent],
    };
    for (array, name) in NAMES.into_iter().enumerate() {
        if before[array] != after[array] && !may[array] {
            return Err(format!("{} changed {name}", call.kind()));
        }
    }
    if matches!(call, Call::Empty) && after[3].iter().any(|entry| *entry != 0) {
        return Err("the queue was not cleared".to_string());
    }
    Ok(())
}

#[cfg(test)]
mod tests;
