//! The tests of a run that do not look at its outputs.

use super::{Called, Case, Run};
use crate::lent::Lent;
use crate::line::Fields;
use crate::values::Answer;
use input::Refusal;
use lyapunov_sys::Arguments;
use oracle::Source;

/// Tests 1 to 12 of a run.
#[derive(Clone, Debug)]
pub struct Validate(pub Run);

impl Case for Validate {
    const KIND: &'static str = "validate";
    const ANSWER: &'static [&'static str] = &["num", "place"];

    fn read(fields: &mut Fields) -> Result<Self, String> {
        Run::read_input(fields).map(Self)
    }

    fn written(&self) -> String {
        self.0.written_input()
    }

    fn model(&self) -> Answer {
        let run = &self.0;
        let tested = model::validate(&run.circuit.system, run.time, &run.state, &run.settings);
        Answer::refusal(tested.err().unwrap_or(Refusal::NONE))
    }

    fn source(&self, source: &dyn Source) -> Option<Answer> {
        self.0.validated_by_source(source).map(Answer::refusal)
    }
}

impl Called for Validate {
    fn library(&self) -> Result<Answer, String> {
        let run = &self.0;
        let arguments = run.circuit.arguments();
        let matrix = Lent::input("mat", arguments.matrix);
        let state = Lent::input("x0", &run.state);
        let lent = Arguments {
            matrix: matrix.slice(),
            ..arguments
        };
        let refusal = lyapunov_sys::validate(lent, run.time, state.slice(), &run.settings);
        matrix.unchanged(arguments.matrix)?;
        state.unchanged(&run.state)?;
        Ok(Answer::refusal(refusal))
    }
}
