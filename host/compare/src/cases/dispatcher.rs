//! Calls of a dispatcher, which makes runs side by side.

mod memory;
mod reference;

pub use memory::Memory;
pub use reference::Reference;

use super::{Listed, Outcome, Run, Slices};
use crate::circuit::Circuit;
use crate::line::Fields;
use crate::values::{bits, list, Answer, Value};
use input::Refusal;
use lyapunov_sys::DISPATCHER_RUNS;

/// A call of a dispatcher.
#[derive(Clone, Debug)]
pub enum Call {
    Empty,
    /// The run's matrix and outputs come with its turns.
    HandIn(Box<Run>),
    Next,
    Turn(Box<Lending>),
}

/// What is lent with a turn: a matrix, and one of several sets of outputs.
#[derive(Clone, Debug)]
pub struct Lending {
    pub set: usize,
    /// Whether the set is made anew; else it is as the last turn left it.
    pub fresh: bool,
    pub matrix: Vec<f64>,
    pub lengths: Slices<usize>,
}

/// The number of sets.
pub const SETS: usize = 16;

/// The name of nobody.
pub const NOBODY: u64 = DISPATCHER_RUNS as u64;

/// What may become of a turn, by its number.
const STAGES: [&str; 4] = [IDLE, UNFIT, UNDER_WAY, OVER];
/// Nobody was next.
pub const IDLE: &str = "nobody";
/// The turn was not spent.
pub const UNFIT: &str = "unfit";
pub const UNDER_WAY: &str = "under-way";
pub const OVER: &str = "over";

/// What became of a turn. The outcome of a run that is not over says what refused the turn, and what
/// its slices hold.
pub struct Turned {
    pub stage: &'static str,
    pub name: u64,
    begun: u64,
    pub outcome: Outcome,
}

impl Listed for Call {
    const KINDS: [&'static str; 4] = ["dispatcher", "hand-in", "next", "turn"];

    type Memory = Memory;

    fn kind(&self) -> &'static str {
        Self::KINDS[match self {
            Self::Empty => 0,
            Self::HandIn(_) => 1,
            Self::Next => 2,
            Self::Turn(_) => 3,
        }]
    }

    fn answer(&self) -> &'static [&'static str] {
        match self {
            Self::Empty => &[],
            Self::HandIn(_) => &["num", "place", "name"],
            Self::Next => &["name"],
            Self::Turn(_) => &[
                "stage", "name", "begun", "num", "place", "finished", "made", "faint", "ftime",
                "mtime", "rows", "exps", "final",
            ],
        }
    }

    fn read(kind: &str, fields: &mut Fields) -> Result<Self, String> {
        match Self::KINDS.iter().position(|known| *known == kind) {
            Some(0) => Ok(Self::Empty),
            Some(1) => {
                let circuit = Circuit::read_with(&[], fields)?;
                Ok(Self::HandIn(Box::new(Run::read_of(circuit, fields)?)))
            }
            Some(2) => Ok(Self::Next),
            Some(3) => Ok(Self::Turn(Box::new(Lending::read(fields)?))),
            _ => Err(format!("unknown kind {kind}")),
        }
    }

    fn written(&self) -> String {
        match self {
            Self::Empty | Self::Next => String::new(),
            Self::HandIn(run) => run.written_of(&run.circuit.written_without_matrix()),
            Self::Turn(lending) => lending.written(),
        }
    }

    fn library(&self, memory: &mut Memory) -> Result<Answer, String> {
        memory.answer(self)
    }

    /// A set that is lent again must be there.
    fn test(&self, memory: &Memory) -> Result<(), String> {
        match self {
            Self::Turn(lending) if !memory.lends(lending) => {
                Err(format!("no set {} of these lengths", lending.set))
            }
            _ => Ok(()),
        }
    }
}

impl Call {
    /// What the answer of a run alone says of this call: of a hand-in, why it is refused.
    pub fn part_of(&self, alone: Answer) -> Answer {
        match self {
            Self::HandIn(_) => alone.only(&["num", "place"]),
            _ => alone,
        }
    }
}

impl Lending {
    /// What a run has, in a set that is made anew.
    pub fn of(run: &Run, set: usize) -> Self {
        Self {
            set,
            fresh: true,
            matrix: run.circuit.arguments().matrix.to_vec(),
            lengths: run.lengths(),
        }
    }

    fn read(fields: &mut Fields) -> Result<Self, String> {
        let (set, fresh) = (fields.size("set")?, fields.count("fresh")?);
        if set >= SETS || fresh > 1 {
            return Err(format!("no set {set}, or fresh={fresh}"));
        }
        Ok(Self {
            set,
            fresh: fresh == 1,
            matrix: fields.floats("mat")?,
            lengths: Slices::read(fields)?,
        })
    }

    fn written(&self) -> String {
        let (set, fresh) = (self.set, u8::from(self.fresh));
        let (matrix, lengths) = (list(&self.matrix, ",", bits), self.lengths.written());
        format!("set={set} fresh={fresh} mat={matrix} {lengths}")
    }
}

/// What a hand-in answers.
fn answer_of_hand_in(refusal: Refusal, name: u64) -> Answer {
    Answer::refusal(refusal).with("name", Value::Count(name))
}

/// What `next` answers.
fn answer_of_next(name: u64) -> Answer {
    Answer::default().with("name", Value::Count(name))
}

impl Turned {
    fn is_spent(&self) -> bool {
        [UNDER_WAY, OVER].contains(&self.stage)
    }

    fn answer(self) -> Answer {
        let mut run = self.outcome.answer();
        if self.stage != OVER {
            for name in ["finished", "made", "ftime", "mtime"] {
                run = run.map(name, |_| Value::Nothing);
            }
            run = run.map("faint", |_| Value::Counts(vec![]));
        }
        Answer::default()
            .with("stage", Value::Text(self.stage.to_string()))
            .with("name", Value::Count(self.name))
            .with("begun", Value::Count(self.begun))
            .and(run)
    }
}

#[cfg(test)]
mod tests;
