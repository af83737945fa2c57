//! Dimension and entropy of a list of rates.

use super::leaves::single;
use super::{Called, Case};
use crate::lent::Lent;
use crate::line::Fields;
use crate::values::{bits, list, Answer, Value};
use input::Refusal;
use oracle::{End, Source};

#[derive(Clone, Debug)]
pub struct Rates(pub Vec<f64>);

impl Case for Rates {
    const KIND: &'static str = "rates";
    const ANSWER: &'static [&'static str] = &["num", "place", "dim", "ent"];

    fn read(fields: &mut Fields) -> Result<Self, String> {
        fields.floats("rates").map(Self)
    }

    fn written(&self) -> String {
        format!("rates={}", list(&self.0, ",", bits))
    }

    fn model(&self) -> Answer {
        let dimension = model::kaplan_yorke_dimension(&self.0);
        let entropy = model::entropy(&self.0);
        match (dimension, entropy) {
            (Ok(dimension), Ok(entropy)) => done(dimension, entropy),
            (Err(refusal), _) | (_, Err(refusal)) => refused(refusal),
        }
    }

    /// The source has no 21.
    fn source(&self, source: &dyn Source) -> Option<Answer> {
        if self.0.len() > 256 {
            return None;
        }
        let dimension = source.kaplan_yorke_dimension(&self.0);
        let entropy = source.kolmogorov_sinai_entropy(&self.0);
        match (dimension, entropy) {
            (End::Done(dimension), End::Done(entropy)) => Some(done(dimension, entropy)),
            (End::Refused(refusal), _) | (_, End::Refused(refusal)) => Some(refused(refusal)),
            _ => None,
        }
    }
}

impl Called for Rates {
    fn library(&self) -> Result<Answer, String> {
        let rates = Lent::input("rates", &self.0);
        let [mut dimension, mut entropy] = ["dim", "ent"].map(|name| Lent::output(name, 1));
        let (given, out) = (rates.slice(), &mut dimension.slice_mut()[0]);
        let by_dimension = lyapunov_sys::kaplan_yorke_dimension(given, out);
        let out = &mut entropy.slice_mut()[0];
        let by_entropy = lyapunov_sys::kolmogorov_sinai_entropy(given, out);
        rates.unchanged(&self.0)?;
        if by_dimension != by_entropy {
            return Err(format!(
                "dimension: {by_dimension:?}, entropy: {by_entropy:?}"
            ));
        }
        Ok(Answer::refusal(by_dimension)
            .with("dim", single(&dimension)?)
            .with("ent", single(&entropy)?))
    }
}

fn done(dimension: f64, entropy: f64) -> Answer {
    Answer::done()
        .with("dim", Value::Float(dimension))
        .with("ent", Value::Float(entropy))
}

fn refused(refusal: Refusal) -> Answer {
    Answer::refusal(refusal)
        .with("dim", Value::Nothing)
        .with("ent", Value::Nothing)
}
