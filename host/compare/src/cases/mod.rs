//! The kinds of cases: what is handed in, and what the library, the model and the source answer.

pub mod dispatcher;
mod leaves;
mod orth;
mod program;
mod rates;
mod run;
mod settings;
mod slices;
mod step;
mod store;
mod validate;

pub use leaves::{turn_of_library, Draw, Log, Root};
pub use orth::{Orth, Turned};
pub use program::Program;
pub use rates::Rates;
pub use run::{Outcome, Run};
pub use settings::Build;
pub use slices::Slices;
pub use step::Step;
pub use store::{Call, Memory, Reference};
pub use validate::Validate;

use crate::line::Fields;
use crate::values::Answer;
use oracle::Source;

/// The turn of the test `number` among `tests`.
fn turn_in(tests: &[u64], number: u64) -> Option<usize> {
    tests.iter().position(|test| *test == number)
}

/// A case without its answer.
pub trait Case: Sized {
    const KIND: &'static str;

    /// The fields of an answer, in their order.
    const ANSWER: &'static [&'static str];

    fn read(fields: &mut Fields) -> Result<Self, String>;

    /// What is handed in, as it stands in a line.
    fn written(&self) -> String;

    fn model(&self) -> Answer;

    /// What the source answers, where it has the behaviour.
    fn source(&self, source: &dyn Source) -> Option<Answer>;

    /// The dimension and the number of directions, of a case that moves a system.
    fn size(&self) -> Option<(usize, usize)> {
        None
    }

    /// A line of a list of cases.
    fn line(&self, id: &str, answer: &Answer, remark: &str) -> String {
        line(Self::KIND, id, &self.written(), answer, remark)
    }
}

/// A line of a list of cases.
pub fn line(kind: &str, id: &str, input: &str, answer: &Answer, remark: &str) -> String {
    let (id, answer) = (format!("id={id}"), answer.written());
    let words = [kind, &id, input, "->", &answer, "#", remark];
    let words: Vec<&str> = words.into_iter().filter(|word| !word.is_empty()).collect();
    words.join(" ")
}

/// A call that stands in a list with others of one memory, which they change in their order.
pub trait Listed: Sized {
    /// The first is the call that empties the memory.
    const KINDS: [&'static str; 4];

    type Memory: Default;

    fn kind(&self) -> &'static str;

    /// The fields of its answer, in their order.
    fn answer(&self) -> &'static [&'static str];

    fn read(kind: &str, fields: &mut Fields) -> Result<Self, String>;

    /// What is handed in, as it stands in a line.
    fn written(&self) -> String;

    /// What the library answers. An error is memory that it must not write.
    fn library(&self, memory: &mut Self::Memory) -> Result<Answer, String>;

    /// An error where the list asks for memory that is not there.
    fn test(&self, _: &Self::Memory) -> Result<(), String> {
        Ok(())
    }

    /// A line of a list of cases.
    fn line(&self, id: &str, answer: &Answer, remark: &str) -> String {
        line(self.kind(), id, &self.written(), answer, remark)
    }
}

/// A case that functions of the proved library answer.
pub trait Called: Case {
    /// What the library answers. An error is memory that it must not write.
    fn library(&self) -> Result<Answer, String>;

    /// The first difference between the library and a reference, or between the two references.
    fn difference(&self, model: &Answer, source: Option<&Answer>) -> Option<String> {
        difference(self.library(), model, source)
    }
}

/// The first difference between the library and a reference, or between the two references.
pub fn difference(
    library: Result<Answer, String>,
    model: &Answer,
    source: Option<&Answer>,
) -> Option<String> {
    let library = match library {
        Ok(answer) => answer,
        Err(memory) => return Some(format!("library: {memory}")),
    };
    if let Some(difference) = source.and_then(|source| source.difference(&library)) {
        return Some(format!("library against source: {difference}"));
    }
    if let Some(difference) = model.difference(&library) {
        return Some(format!("library against model: {difference}"));
    }
    let between = source.and_then(|source| source.difference(model));
    between.map(|difference| format!("model against source: {difference}"))
}
