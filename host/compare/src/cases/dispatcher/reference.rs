//! What is to be answered: by the model, and by the run alone.

use super::{answer_of_hand_in, answer_of_next};
use super::{Call, Lending, Turned, IDLE, NOBODY, OVER, UNDER_WAY, UNFIT};
use crate::cases::{Outcome, Run, Slices};
use crate::values::{same_list, Answer};
use input::{Refusal, System, MAX_DIMENSION};
use model::Stage;
use std::collections::BTreeMap;

/// The model's dispatcher, and what was lent to each of its runs.
#[derive(Default)]
pub struct Reference {
    dispatcher: model::Dispatcher,
    sets: BTreeMap<usize, Set>,
    /// The unfinished runs, by name.
    runs: BTreeMap<u64, Taken>,
    /// How many sets were made and runs taken: each has a number of its own.
    made: u64,
}

struct Set {
    made: u64,
    slices: Slices<Vec<f64>>,
    /// The run that had the last turn with it.
    written_by: Option<u64>,
}

struct Taken {
    made: u64,
    run: Run,
    lent: Lent,
}

/// What a run was lent with the turns that it spent.
enum Lent {
    Nothing,
    /// The same matrix, where it is read, and the same set, which no other run was lent.
    Same {
        set: u64,
        matrix: Vec<f64>,
    },
    Various,
}

impl Reference {
    /// What the model answers, and the run that answers the same alone, where there is one.
    pub fn answers(&mut self, call: &Call) -> (Answer, Option<Run>) {
        match call {
            Call::Empty => {
                self.dispatcher = model::Dispatcher::default();
                self.runs.clear();
                (Answer::default(), None)
            }
            Call::HandIn(run) => self.hand_in(run),
            Call::Next => (answer_of_next(self.next().unwrap_or(NOBODY)), None),
            Call::Turn(lending) => self.turn(lending),
        }
    }

    /// Whose turn is next.
    pub fn next(&self) -> Option<u64> {
        self.dispatcher.next()
    }

    fn number(&mut self) -> u64 {
        self.made += 1;
        self.made
    }

    fn hand_in(&mut self, run: &Run) -> (Answer, Option<Run>) {
        match self.dispatcher.hand_in(run.input()) {
            Ok(name) => {
                let taken = Taken {
                    made: self.number(),
                    run: run.clone(),
                    lent: Lent::Nothing,
                };
                self.runs.insert(name, taken);
                (answer_of_hand_in(Refusal::NONE, name), None)
            }
            Err(refusal) => {
                let alone = (refusal.number != 28).then(|| with_what_fits(run));
                (answer_of_hand_in(refusal, NOBODY), alone)
            }
        }
    }

    fn turn(&mut self, lending: &Lending) -> (Answer, Option<Run>) {
        let anew = Set {
            made: self.number(),
            slices: lending.lengths.filled(),
            written_by: None,
        };
        if lending.fresh {
            self.sets.remove(&lending.set);
        }
        let set = self.sets.entry(lending.set).or_insert(anew);
        let turn = self
            .dispatcher
            .turn(&lending.matrix, &mut set.slices.for_model());
        let turned = turned(turn, &set.slices);
        if let Some(taken) = self
            .runs
            .get_mut(&turned.name)
            .filter(|_| turned.is_spent())
        {
            taken.note(set, &lending.matrix);
        }
        let over = match turned.stage {
            OVER => self.runs.remove(&turned.name),
            _ => None,
        };
        let alone = over.and_then(|taken| taken.alone(&lending.lengths));
        (turned.answer(), alone)
    }
}

/// What became of the model's turn with these slices.
fn turned(turn: Option<model::Turn>, slices: &Slices<Vec<f64>>) -> Turned {
    let untouched = |refusal| Outcome::untouched(refusal, slices.clone());
    let Some(model::Turn { name, begun, stage }) = turn else {
        return Turned {
            stage: IDLE,
            name: NOBODY,
            begun: 0,
            outcome: untouched(Refusal::NONE),
        };
    };
    let (stage, outcome) = match stage {
        Stage::Unfit(refusal) => (UNFIT, untouched(refusal)),
        Stage::UnderWay => (UNDER_WAY, untouched(Refusal::NONE)),
        Stage::Over(answer) => (OVER, Outcome::of_model(&answer, slices.clone())),
    };
    Turned {
        stage,
        name,
        begun,
        outcome,
    }
}

impl Taken {
    /// Takes notice of a turn that was spent.
    fn note(&mut self, set: &mut Set, matrix: &[f64]) {
        let reads_matrix = matches!(self.run.circuit.system, System::Linear { .. });
        match &self.lent {
            Lent::Nothing if set.written_by.is_none() => {
                self.lent = Lent::Same {
                    set: set.made,
                    matrix: matrix.to_vec(),
                };
            }
            Lent::Same {
                set: made,
                matrix: earlier,
            } if *made == set.made
                && set.written_by == Some(self.made)
                && (!reads_matrix || same_list(earlier, matrix)) => {}
            _ => self.lent = Lent::Various,
        }
        set.written_by = Some(self.made);
    }

    /// The run alone, where it was lent the same at each turn.
    fn alone(&self, lengths: &Slices<usize>) -> Option<Run> {
        let Lent::Same { matrix, .. } = &self.lent else {
            return None;
        };
        let mut alone = self.run.clone().with_lengths(lengths);
        alone.circuit = alone.circuit.with_matrix(matrix);
        Some(alone)
    }
}

/// The run with a matrix and outputs that fit, or with more than a refused one looks at.
fn with_what_fits(run: &Run) -> Run {
    const MOST: usize = 4096;
    let mut circuit = run.circuit.clone();
    if let System::Linear { dimension, .. } = circuit.system {
        let d = dimension.min(MAX_DIMENSION);
        circuit = circuit.with_matrix(&vec![0.0; d * d]);
    }
    let mut run = Run::fitting(circuit, run.settings, run.time, run.state.clone());
    run.rows = run.rows.min(MOST);
    run.exponents = run.exponents.min(MOST);
    run.final_state = run.final_state.min(MOST);
    run
}
