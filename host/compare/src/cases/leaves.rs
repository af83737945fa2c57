//! Root, logarithm and draw.

use super::{Called, Case};
use crate::lent::Lent;
use crate::line::Fields;
use crate::values::{bits, word, Answer, Value, FILLING};
use input::Refusal;
use oracle::logarithm::document_logarithm;
use oracle::Source;

/// The root of a float.
pub struct Root(pub f64);

impl Case for Root {
    const KIND: &'static str = "root";
    const ANSWER: &'static [&'static str] = &["y"];

    fn read(fields: &mut Fields) -> Result<Self, String> {
        fields.float("x").map(Self)
    }

    fn written(&self) -> String {
        format!("x={}", bits(&self.0))
    }

    fn model(&self) -> Answer {
        Self::answer(model::square_root(self.0))
    }

    /// The source takes the hardware's root.
    fn source(&self, _: &dyn Source) -> Option<Answer> {
        Some(Self::answer(self.0.sqrt()))
    }
}

impl Called for Root {
    fn library(&self) -> Result<Answer, String> {
        Ok(Self::answer(lyapunov_sys::sqrt(self.0)))
    }
}

impl Root {
    fn answer(root: f64) -> Answer {
        Answer::default().with("y", Value::Float(root))
    }
}

/// The logarithm of a float.
pub struct Log(pub f64);

impl Case for Log {
    const KIND: &'static str = "log";
    const ANSWER: &'static [&'static str] = &["num", "place", "y"];

    fn read(fields: &mut Fields) -> Result<Self, String> {
        Root::read(fields).map(|root| Self(root.0))
    }

    fn written(&self) -> String {
        Root(self.0).written()
    }

    fn model(&self) -> Answer {
        match model::logarithm(self.0) {
            Some(log) => Answer::done().with("y", Value::Float(log)),
            None => Answer::refusal(Refusal::of(24)).with("y", Value::Nothing),
        }
    }

    /// The oracle's form of the logarithm, where it has a value.
    fn source(&self, _: &dyn Source) -> Option<Answer> {
        let covered = self.0.is_normal() && self.0 > 0.0;
        let log = || Value::Float(document_logarithm(self.0));
        covered.then(|| Answer::done().with("y", log()))
    }
}

impl Called for Log {
    fn library(&self) -> Result<Answer, String> {
        let mut out = Lent::output("out", 1);
        let number = lyapunov_sys::ln(self.0, &mut out.slice_mut()[0]);
        Ok(Answer::refusal(Refusal::of(number)).with("y", single(&out)?))
    }
}

/// An output of one float: nothing where it holds its filling still.
pub fn single(out: &Lent<f64>) -> Result<Value, String> {
    let out = out.returned()?[0];
    Ok(if out.to_bits() == FILLING.to_bits() {
        Value::Nothing
    } else {
        Value::Float(out)
    })
}

/// Turns of the generator from a state.
pub struct Draw {
    pub state: u64,
    pub turns: u64,
}

impl Case for Draw {
    const KIND: &'static str = "draw";
    const ANSWER: &'static [&'static str] = &["states", "outs", "values"];

    fn read(fields: &mut Fields) -> Result<Self, String> {
        let (state, turns) = (fields.word("state")?, fields.count("n")?);
        Ok(Self { state, turns })
    }

    fn written(&self) -> String {
        format!("state={} n={}", word(&self.state), self.turns)
    }

    fn model(&self) -> Answer {
        self.answer(|state| {
            let (next, output) = model::splitmix64(state);
            (next, output, model::symmetric_unit(output))
        })
    }

    fn source(&self, source: &dyn Source) -> Option<Answer> {
        Some(self.answer(|state| {
            let turn = source.splitmix64(state);
            (turn.state, turn.output, turn.symmetric_unit)
        }))
    }
}

impl Called for Draw {
    fn library(&self) -> Result<Answer, String> {
        Ok(self.answer(turn_of_library))
    }
}

/// The next state, its output and its draw.
pub fn turn_of_library(state: u64) -> (u64, u64, f64) {
    let next = lyapunov_sys::splitmix64_next(state);
    let output = lyapunov_sys::splitmix64_value(next);
    let draw = lyapunov_sys::splitmix64_symmetric_unit(output);
    (next, output, draw)
}

impl Draw {
    fn answer(&self, turn: impl Fn(u64) -> (u64, u64, f64)) -> Answer {
        let (mut states, mut outputs, mut values) = (vec![], vec![], vec![]);
        let mut state = self.state;
        for _ in 0..self.turns {
            let (next, output, value) = turn(state);
            state = next;
            states.push(next);
            outputs.push(output);
            values.push(value);
        }
        Answer::default()
            .with("states", Value::Words(states))
            .with("outs", Value::Words(outputs))
            .with("values", Value::Floats(values))
    }
}
