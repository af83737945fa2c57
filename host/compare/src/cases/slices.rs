//! The three outputs of a run: their lengths, and the memory that is lent.

use super::Outcome;
use crate::lent::{Lent, FILLING};
use crate::line::Fields;
use input::Refusal;
use lyapunov_sys::Outputs;

/// Something of each output.
#[derive(Clone, Debug, PartialEq, Eq)]
pub struct Slices<T> {
    pub rows: T,
    pub exponents: T,
    pub final_state: T,
}

impl<T> Slices<T> {
    fn map<U>(&self, change: impl Fn(&T) -> U) -> Slices<U> {
        Slices {
            rows: change(&self.rows),
            exponents: change(&self.exponents),
            final_state: change(&self.final_state),
        }
    }
}

/// Lengths.
impl Slices<usize> {
    pub fn read(fields: &mut Fields) -> Result<Self, String> {
        Ok(Self {
            rows: fields.size("rowslen")?,
            exponents: fields.size("expslen")?,
            final_state: fields.size("finallen")?,
        })
    }

    pub fn written(&self) -> String {
        let (rows, exponents, final_state) = (self.rows, self.exponents, self.final_state);
        format!("rowslen={rows} expslen={exponents} finallen={final_state}")
    }

    /// Memory for the model.
    pub fn filled(&self) -> Slices<Vec<f64>> {
        self.map(|length| vec![FILLING; *length])
    }

    /// Memory for the library.
    pub fn lent(&self) -> Slices<Lent<f64>> {
        Slices {
            rows: Lent::output("rows", self.rows),
            exponents: Lent::output("exps", self.exponents),
            final_state: Lent::output("final", self.final_state),
        }
    }
}

impl Slices<Vec<f64>> {
    pub fn for_model(&mut self) -> model::Outputs<'_> {
        model::Outputs {
            rows: &mut self.rows,
            exponents: &mut self.exponents,
            final_state: &mut self.final_state,
        }
    }
}

impl Slices<Lent<f64>> {
    pub fn lengths(&self) -> Slices<usize> {
        self.map(|lent| lent.slice().len())
    }

    /// Lends them to a call of the library; answers what it leaves.
    pub fn to(&mut self, call: impl FnOnce(&mut Outputs) -> u64) -> Result<Outcome, String> {
        let mut counts = Lent::<u64>::output("counts", 19);
        let mut times = Lent::<f64>::output("times", 2);
        let number = call(&mut Outputs {
            rows: self.rows.slice_mut(),
            exponents: self.exponents.slice_mut(),
            final_state: self.final_state.slice_mut(),
            counts: counts.array_mut(),
            times: times.array_mut(),
        });
        let (counts, times) = (counts.returned()?, times.returned()?);
        Ok(Outcome {
            refusal: Refusal::at(number, counts[0]),
            finished: counts[1],
            steps: counts[2],
            faint: counts[3..].to_vec(),
            final_time: times[0],
            measured_time: times[1],
            rows: self.rows.returned()?,
            exponents: self.exponents.returned()?,
            final_state: self.final_state.returned()?,
        })
    }
}
