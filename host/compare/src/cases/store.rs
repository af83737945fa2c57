//! Calls of a store, which keeps states under numbers.

use super::{Case, Listed, Outcome, Run};
use crate::lent::{Lent, FILLING};
use crate::line::Fields;
use crate::values::Answer;
use input::Refusal;
use lyapunov_sys::{StoreMut, StoreRef, STORE_COUNTS, STORE_FLOATS, STORE_STATES};
use oracle::Source;

/// A call of a store.
#[derive(Clone, Debug)]
pub enum Call {
    Empty,
    Keep(u8, Box<Run>),
    GoOn(u8, Box<Run>),
    Forget(u8),
}

impl Listed for Call {
    const KINDS: [&'static str; 4] = ["empty", "keep", "go-on", "forget"];

    type Memory = Memory;

    fn kind(&self) -> &'static str {
        Self::KINDS[match self {
            Self::Empty => 0,
            Self::Keep(..) => 1,
            Self::GoOn(..) => 2,
            Self::Forget(_) => 3,
        }]
    }

    fn answer(&self) -> &'static [&'static str] {
        match self {
            Self::Empty => &[],
            Self::Keep(..) | Self::GoOn(..) => Run::ANSWER,
            Self::Forget(_) => &["num", "place"],
        }
    }

    fn read(kind: &str, fields: &mut Fields) -> Result<Self, String> {
        if kind == Self::KINDS[0] {
            return Ok(Self::Empty);
        }
        let number = fields.count("number")?;
        let number = u8::try_from(number).map_err(|_| format!("{number} is above 255"))?;
        let mut run = || Run::read(fields).map(Box::new);
        match Self::KINDS.iter().position(|known| *known == kind) {
            Some(1) => Ok(Self::Keep(number, run()?)),
            Some(2) => Ok(Self::GoOn(number, run()?)),
            Some(3) => Ok(Self::Forget(number)),
            _ => Err(format!("unknown kind {kind}")),
        }
    }

    fn written(&self) -> String {
        match self {
            Self::Empty => String::new(),
            Self::Keep(number, run) | Self::GoOn(number, run) => {
                format!("number={number} {}", run.written())
            }
            Self::Forget(number) => format!("number={number}"),
        }
    }

    fn library(&self, memory: &mut Memory) -> Result<Answer, String> {
        memory.answer(self)
    }
}

/// The model's store, and what the source answers in its place.
#[derive(Debug, Default)]
pub struct Reference {
    store: model::Store,
}

/// The answers to a call, of the model and, where it has the behaviour, of the source.
pub type Answers = (Answer, Option<Answer>);

impl Reference {
    /// What is to be answered; nothing where the answer is free.
    pub fn answers(&mut self, call: &Call, source: Option<&dyn Source>) -> Option<Answers> {
        match call {
            Call::Empty => {
                self.store = model::Store::default();
                Some((Answer::default(), None))
            }
            Call::Keep(number, run) => self.keep(*number, run, source),
            Call::GoOn(number, run) => self.go_on(*number, run, source),
            Call::Forget(number) => {
                let refusal = self.store.forget(*number).err();
                let answer = Answer::refusal(refusal.unwrap_or(Refusal::NONE));
                Some((answer, None))
            }
        }
    }

    /// The source has no 27.
    fn keep(&mut self, number: u8, run: &Run, source: Option<&dyn Source>) -> Option<Answers> {
        let store = &mut self.store;
        let model =
            run.answer_of_model(|outputs| Some(store.keep(number, run.input(), outputs)))?;
        let source = source.filter(|_| model.number() != 27);
        let source = source.and_then(|source| run.source(source));
        Some((model, source))
    }

    /// The source has no 26. It makes the windows that were kept and those to come in one run.
    fn go_on(&self, number: u8, run: &Run, source: Option<&dyn Source>) -> Option<Answers> {
        let store = &self.store;
        let model = run.answer_of_model(|outputs| store.go_on(number, run.input(), outputs))?;
        let known = source.zip(store.windows(number));
        let source = known.and_then(|(source, earlier)| run.later_by_source(source, earlier));
        Some((model, source))
    }
}

/// The lengths of a place for one state in the two arrays.
const FLOATS: usize = STORE_FLOATS / STORE_STATES;
const COUNTS: usize = STORE_COUNTS / STORE_STATES;

/// The library's store, which is lent with borders. After each call it is tested that only what may
/// change did.
pub struct Memory {
    floats: Lent<f64>,
    counts: Lent<u64>,
}

impl Default for Memory {
    /// A store that holds what nobody set, to be emptied.
    fn default() -> Self {
        Self::of(&[FILLING; STORE_FLOATS], &[u64::MAX; STORE_COUNTS])
    }
}

/// All of a store, floats by their bits.
struct Content {
    floats: Vec<u64>,
    counts: Vec<u64>,
}

impl Memory {
    /// A store that holds anything.
    pub fn of(floats: &[f64; STORE_FLOATS], counts: &[u64; STORE_COUNTS]) -> Self {
        let mut memory = Self {
            floats: Lent::input("the store's floats", floats),
            counts: Lent::output("the store's counts", STORE_COUNTS),
        };
        memory.counts.slice_mut().copy_from_slice(counts);
        memory
    }

    /// What the library answers. An error is memory that it must not write.
    pub fn answer(&mut self, call: &Call) -> Result<Answer, String> {
        let before = self.content()?;
        let answer = self.called(call)?;
        let after = self.content()?;
        changed_as_it_may(call, answer.number(), &before, &after)?;
        Ok(answer)
    }

    fn called(&mut self, call: &Call) -> Result<Answer, String> {
        match call {
            Call::Empty => {
                lyapunov_sys::empty_store(self.counts.array_mut());
                Ok(Answer::default())
            }
            Call::Keep(number, run) => Ok(self.kept(*number, run)?.answer()),
            Call::GoOn(number, run) => Ok(self.gone_on(*number, run)?.answer()),
            Call::Forget(number) => {
                let (floats, counts) = (self.floats.array(), self.counts.array_mut());
                let refusal = lyapunov_sys::forget(floats, counts, *number);
                Ok(Answer::refusal(Refusal::of(refusal)))
            }
        }
    }

    /// The library's keep.
    pub fn kept(&mut self, number: u8, run: &Run) -> Result<Outcome, String> {
        run.outcome_of(|system, state, outputs| {
            let store = StoreMut {
                floats: self.floats.array_mut(),
                counts: self.counts.array_mut(),
            };
            let (time, settings) = (run.time, &run.settings);
            lyapunov_sys::keep(store, number, system, time, state, settings, outputs)
        })
    }

    /// The library's going on.
    pub fn gone_on(&self, number: u8, run: &Run) -> Result<Outcome, String> {
        run.outcome_of(|system, state, outputs| {
            let store = StoreRef {
                floats: self.floats.array(),
                counts: self.counts.array(),
            };
            let (time, settings) = (run.time, &run.settings);
            lyapunov_sys::go_on(store, number, system, time, state, settings, outputs)
        })
    }

    fn content(&self) -> Result<Content, String> {
        let floats = self.floats.returned()?;
        Ok(Content {
            floats: floats.into_iter().map(f64::to_bits).collect(),
            counts: self.counts.returned()?,
        })
    }
}

/// The floats and the counts of one state.
type Place<'a> = (&'a [u64], &'a [u64]);

impl Content {
    fn place(&self, at: usize) -> Place<'_> {
        let (floats, counts) = (at * FLOATS, at * COUNTS);
        (
            &self.floats[floats..floats + FLOATS],
            &self.counts[counts..counts + COUNTS],
        )
    }

    /// The first count of a place is the number that it keeps and 1, or 0 where it is free.
    fn tag(&self, at: usize) -> u64 {
        self.counts[at * COUNTS]
    }
}

/// Emptying clears the counts, a keep that is not refused writes the place of its number, and
/// forgetting clears its tag. Nothing else changes.
fn changed_as_it_may(
    call: &Call,
    refusal: u64,
    before: &Content,
    after: &Content,
) -> Result<(), String> {
    let changed = (0..STORE_STATES).filter(|at| before.place(*at) != after.place(*at));
    let changed: Vec<usize> = changed.collect();
    let fits = match (call, &changed[..]) {
        (Call::Empty, _) => {
            before.floats == after.floats && after.counts.iter().all(|count| *count == 0)
        }
        (Call::Keep(number, _), [at]) if refusal == 0 => after.tag(*at) == tag_of(*number),
        // Memory that no call made may have its number in more places than one.
        (Call::Forget(number), [_, ..]) if refusal == 0 => {
            let forgot = |at: &usize| is_forgotten(*number, before.place(*at), after.place(*at));
            changed.iter().all(forgot)
        }
        (Call::Forget(_), []) => refusal != 0,
        // A keep may write what is there already.
        (_, []) => true,
        _ => false,
    };
    if fits {
        return Ok(());
    }
    let kind = call.kind();
    Err(format!(
        "{kind}, refused by {refusal}, changed the places {changed:?} of the store"
    ))
}

/// Whether a place kept `number` and lost its tag alone.
fn is_forgotten(number: u8, before: Place, after: Place) -> bool {
    let tags = (before.1[0], after.1[0]);
    tags == (tag_of(number), 0) && before.0 == after.0 && before.1[1..] == after.1[1..]
}

fn tag_of(number: u8) -> u64 {
    u64::from(number) + 1
}

#[cfg(test)]
mod tests {
    use super::*;
    use crate::generate::kept;
    use crate::line::Line;

    #[test]
    fn calls_are_read_as_they_are_written() {
        for (call, remark) in kept::calls() {
            let text = call.line("A", &Answer::default(), remark);
            let mut line = Line::read(&text).unwrap();
            let read = Call::read(line.kind, &mut line.input).unwrap();
            assert_eq!(line.input.finish(), Ok(()));
            assert_eq!((read.kind(), read.written()), (call.kind(), call.written()));
        }
        for text in ["forget id=A number=256 ->", "forget id=A number=-1 ->"] {
            let mut line = Line::read(text).unwrap();
            assert!(Call::read(line.kind, &mut line.input).is_err(), "{text}");
        }
    }

    /// Places 2 and 5 keep the numbers 6 and 255, and the others are free.
    fn content() -> Content {
        let mut counts = vec![0; STORE_COUNTS];
        counts[2 * COUNTS] = 7;
        counts[5 * COUNTS] = 256;
        counts[5 * COUNTS + 1] = 3;
        let floats = vec![1; STORE_FLOATS];
        Content { floats, counts }
    }

    /// Whether a call may turn `content` into what `change` makes of it.
    fn may(call: &Call, refusal: u64, change: impl Fn(&mut Content)) -> bool {
        let (before, mut after) = (content(), content());
        change(&mut after);
        changed_as_it_may(call, refusal, &before, &after).is_ok()
    }

    /// Changes the entry `at` of the floats or of the counts.
    fn floats(at: usize) -> impl Fn(&mut Content) {
        move |content| content.floats[at] = 2
    }

    fn counts(at: usize, to: u64) -> impl Fn(&mut Content) {
        move |content| content.counts[at] = to
    }

    fn nothing(_: &mut Content) {}

    #[test]
    fn emptying_clears_all_counts() {
        let clear = |content: &mut Content| content.counts.fill(0);
        assert!(may(&Call::Empty, 0, clear));
        assert!(!may(&Call::Empty, 0, nothing));
        let and_floats = |content: &mut Content| {
            clear(content);
            content.floats[9] = 0;
        };
        assert!(!may(&Call::Empty, 0, and_floats));
    }

    #[test]
    fn keeping_writes_one_place() {
        let [run, ..] = kept::refused_in_a_later_window().map(Box::new);
        let keep = |number: u8| Call::Keep(number, run.clone());
        assert!(may(&keep(255), 0, floats(5 * FLOATS)));
        assert!(may(&keep(255), 0, counts(5 * COUNTS + 1, 9)));
        assert!(may(&keep(255), 0, nothing));
        assert!(may(&keep(9), 0, counts(0, 10)));
        assert!(!may(&keep(9), 0, counts(0, 9)));
        assert!(!may(&keep(255), 0, floats(5 * FLOATS - 1)));
        assert!(!may(&keep(255), 0, |content| {
            floats(5 * FLOATS)(content);
            floats(0)(content);
        }));
        assert!(!may(&keep(255), 13, floats(5 * FLOATS)));
        assert!(may(&keep(255), 13, nothing));
    }

    #[test]
    fn going_on_writes_nothing() {
        let [run, ..] = kept::refused_in_a_later_window().map(Box::new);
        let go_on = Call::GoOn(255, run);
        for refusal in [0, 16] {
            assert!(may(&go_on, refusal, nothing));
            assert!(!may(&go_on, refusal, floats(5 * FLOATS)));
            assert!(!may(&go_on, refusal, counts(5 * COUNTS + 1, 4)));
        }
    }

    #[test]
    fn forgetting_clears_one_tag() {
        let forget = Call::Forget(255);
        assert!(may(&forget, 0, counts(5 * COUNTS, 0)));
        assert!(!may(&forget, 0, nothing));
        assert!(!may(&forget, 0, counts(2 * COUNTS, 0)));
        assert!(!may(&forget, 0, counts(5 * COUNTS + 1, 0)));
        assert!(!may(&forget, 0, |content| {
            counts(5 * COUNTS, 0)(content);
            counts(5 * COUNTS + 1, 0)(content);
        }));
        assert!(may(&forget, 26, nothing));
        assert!(!may(&forget, 26, counts(5 * COUNTS, 0)));
    }
}
