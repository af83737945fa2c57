//! The step on its own.

use super::{turn_in, Called, Case};
use crate::circuit::Circuit;
use crate::lent::Lent;
use crate::line::Fields;
use crate::values::{bits, list, Answer, Value};
use input::{Refusal, MAX_DIMENSION};
use lyapunov_sys::Arguments;
use oracle::{End, Source};

#[derive(Clone, Debug)]
pub struct Step {
    pub circuit: Circuit,
    pub time: f64,
    pub step_size: f64,
    pub state: Vec<f64>,
    pub directions: Vec<f64>,
    pub count: usize,
}

/// The tests of a step in their order.
const TESTS: [u64; 8] = [7, 8, 25, 9, 10, 19, 6, 2];

impl Case for Step {
    const KIND: &'static str = "step";
    const ANSWER: &'static [&'static str] = &["num", "place", "state", "dirs"];

    fn read(fields: &mut Fields) -> Result<Self, String> {
        Ok(Self {
            circuit: Circuit::read(fields)?,
            time: fields.float("t")?,
            step_size: fields.float("h")?,
            state: fields.floats("state")?,
            directions: fields.floats("dirs")?,
            count: fields.size("count")?,
        })
    }

    fn written(&self) -> String {
        let (time, step_size) = (bits(&self.time), bits(&self.step_size));
        let [state, directions] = [&self.state, &self.directions].map(|x| list(x, ",", bits));
        let (circuit, count) = (self.circuit.written(), self.count);
        format!("{circuit} t={time} h={step_size} state={state} dirs={directions} count={count}")
    }

    fn model(&self) -> Answer {
        let (mut state, mut directions) = (self.state.clone(), self.directions.clone());
        let (system, h, count) = (&self.circuit.system, self.step_size, self.count);
        let answer = model::step(system, self.time, h, &mut state, &mut directions, count);
        answered(answer.err().unwrap_or(Refusal::NONE), state, directions)
    }

    /// Where a test that the source does not have fails, it is asked for the tests before it.
    fn source(&self, source: &dyn Source) -> Option<Answer> {
        let many = (self.count > MAX_DIMENSION).then_some(19);
        let added = self.circuit.added_refusal().or(many);
        let circuit = oracle::Circuit {
            system: &self.circuit.system,
            may_evaluate: added.is_none(),
            neighbours: Default::default(),
        };
        let (mut state, mut directions) = (self.state.clone(), self.directions.clone());
        let step = oracle::Step {
            time: self.time,
            step_size: self.step_size,
            state: &mut state,
            tangents: &mut directions,
            count: self.count,
        };
        let refusal = match source.steps(circuit, step, 1) {
            End::Done(()) => Refusal::NONE,
            End::Refused(refusal) => {
                let turn = |number| turn_in(&TESTS, number);
                let earlier = turn(refusal.number) <= added.and_then(turn);
                if added.is_some() && !earlier {
                    return None;
                }
                refusal
            }
            End::Stopped => return None,
        };
        Some(answered(refusal, state, directions))
    }

    fn size(&self) -> Option<(usize, usize)> {
        Some((self.circuit.dimension(), self.count))
    }
}

impl Called for Step {
    fn library(&self) -> Result<Answer, String> {
        let arguments = self.circuit.arguments();
        let matrix = Lent::input("mat", arguments.matrix);
        let mut state = Lent::input("state", &self.state);
        let mut directions = Lent::input("dirs", &self.directions);
        let lent = Arguments {
            matrix: matrix.slice(),
            ..arguments
        };
        let (x, t) = (state.slice_mut(), directions.slice_mut());
        let refusal = lyapunov_sys::step(lent, self.time, x, t, self.count, self.step_size);
        matrix.unchanged(arguments.matrix)?;
        Ok(answered(refusal, state.returned()?, directions.returned()?))
    }
}

fn answered(refusal: Refusal, state: Vec<f64>, directions: Vec<f64>) -> Answer {
    Answer::refusal(refusal)
        .with("state", Value::Floats(state))
        .with("dirs", Value::Floats(directions))
}
