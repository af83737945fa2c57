//! The orthonormaliser on its own.

use super::{Called, Case};
use crate::lent::Lent;
use crate::line::Fields;
use crate::values::{bits, list, same, Answer, Value, FILLING};
use input::Refusal;
use oracle::{End, Source};

#[derive(Clone, Debug)]
pub struct Orth {
    pub dimension: usize,
    pub directions: Vec<f64>,
    /// The length of the second slice.
    pub numbers: usize,
}

/// An entry that has other bits than by sums from +0.0, as they were before document 02's request d.
#[derive(Clone, Copy, Debug, PartialEq, Eq)]
pub struct Turned {
    pub entry: usize,
    pub from: u64,
    pub to: u64,
}

impl Orth {
    /// What is refused, and the directions and numbers that are left, with every sum from `start`.
    fn model_from(&self, start: f64) -> (Refusal, Vec<f64>, Vec<f64>) {
        let (mut directions, mut numbers) = (self.directions.clone(), vec![FILLING; self.numbers]);
        let d = self.dimension;
        let answer = model::orthonormalise_from(start, &mut directions, d, &mut numbers);
        (answer.err().unwrap_or(Refusal::NONE), directions, numbers)
    }

    /// The entries that the start of the sums decides.
    pub fn turned(&self) -> Vec<Turned> {
        let left = [0.0, model::SUM_START].map(|start| self.model_from(start).1);
        let other = |entry: usize| {
            let [from, to] = [0, 1].map(|by| left[by][entry]);
            let (same, [from, to]) = (same(from, to), [from, to].map(f64::to_bits));
            (!same).then_some(Turned { entry, from, to })
        };
        (0..self.directions.len()).filter_map(other).collect()
    }
}

impl Case for Orth {
    const KIND: &'static str = "orth";
    const ANSWER: &'static [&'static str] = &["num", "place", "dirs", "numbers"];

    fn read(fields: &mut Fields) -> Result<Self, String> {
        Ok(Self {
            dimension: fields.size("d")?,
            directions: fields.floats("dirs")?,
            numbers: fields.size("numbers")?,
        })
    }

    fn written(&self) -> String {
        let (d, numbers) = (self.dimension, self.numbers);
        let directions = list(&self.directions, ",", bits);
        format!("d={d} dirs={directions} numbers={numbers}")
    }

    fn model(&self) -> Answer {
        let (refusal, directions, numbers) = self.model_from(model::SUM_START);
        answered(refusal, directions, Value::Floats(numbers))
    }

    /// The source has neither 7 nor 13 here, and gives no squared lengths. On a collapse it drops
    /// the logarithms of the finished directions; these are asked for on their own.
    fn source(&self, source: &dyn Source) -> Option<Answer> {
        let d = self.dimension;
        if d == 0 || self.numbers / 2 < self.directions.len() / d {
            return None;
        }
        let mut directions = self.directions.clone();
        let (refusal, logs) = match source.modified_gram_schmidt(&mut directions, d) {
            End::Done(logs) => (Refusal::NONE, logs),
            End::Refused(refusal) => {
                let finished = refusal.place as usize * d;
                let mut before = self.directions[..finished].to_vec();
                let End::Done(logs) = source.modified_gram_schmidt(&mut before, d) else {
                    return Some(Answer::refusal(refusal));
                };
                (refusal, logs)
            }
            End::Stopped => return None,
        };
        Some(answered(refusal, directions, Value::Leading(logs)))
    }
}

impl Called for Orth {
    fn library(&self) -> Result<Answer, String> {
        let mut directions = Lent::input("dirs", &self.directions);
        let mut numbers = Lent::<f64>::output("numbers", self.numbers);
        let refusal = lyapunov_sys::modified_gram_schmidt(
            directions.slice_mut(),
            self.dimension,
            numbers.slice_mut(),
        );
        let numbers = Value::Floats(numbers.returned()?);
        Ok(answered(refusal, directions.returned()?, numbers))
    }
}

fn answered(refusal: Refusal, directions: Vec<f64>, numbers: Value) -> Answer {
    Answer::refusal(refusal)
        .with("dirs", Value::Floats(directions))
        .with("numbers", numbers)
}
