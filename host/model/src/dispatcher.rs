//! Runs side by side, which take turns of one window: document 02's request f.

use crate::run::{output_tests, validate, Estimate, Input, Outputs, Run};
use crate::{refuse_if, system};
use input::{Refusal, System, MAX_DIMENSION};
use std::collections::VecDeque;

/// The most unfinished runs.
const MOST: usize = 8;

/// The unfinished runs, the one in front first.
#[derive(Clone, Debug, Default)]
pub struct Dispatcher {
    queue: VecDeque<Unfinished>,
}

#[derive(Clone, Debug)]
struct Unfinished {
    name: u64,
    /// Its matrix comes with each turn.
    system: System,
    run: Run,
}

/// What became of a turn.
#[derive(Clone, Debug)]
pub struct Turn {
    pub name: u64,
    /// Windows of the run that were begun, this turn's included.
    pub begun: u64,
    pub stage: Stage,
}

#[derive(Clone, Debug)]
pub enum Stage {
    /// The turn is not spent.
    Unfit(Refusal),
    UnderWay,
    Over(Estimate),
}

impl Dispatcher {
    /// Takes a run to the back; answers its name. The matrix of a linear system is not looked at.
    pub fn hand_in(&mut self, input: Input) -> Result<u64, Refusal> {
        refuse_if(self.queue.len() >= MOST, Refusal::of(28))?;
        let (time, state, settings) = (input.time, input.state, input.settings);
        validate(&with_zeros(input.system), time, state, settings)?;
        let run = Run::begin(time, state, settings)?;
        let name = self.least_free_name();
        self.queue.push_back(Unfinished {
            name,
            system: input.system.clone(),
            run,
        });
        Ok(name)
    }

    /// The name of the run in front.
    pub fn next(&self) -> Option<u64> {
        self.queue.front().map(|front| front.name)
    }

    /// One window of the run in front, which goes to the back unless it is over. Nothing where there
    /// is none.
    pub fn turn(&mut self, matrix: &[f64], outputs: &mut Outputs) -> Option<Turn> {
        let mut front = self.queue.pop_front()?;
        let stage = front.turn(matrix, outputs);
        let (name, begun) = (front.name, front.run.begun);
        match stage {
            Stage::Unfit(_) => self.queue.push_front(front),
            Stage::UnderWay => self.queue.push_back(front),
            Stage::Over(_) => {}
        }
        Some(Turn { name, begun, stage })
    }

    fn least_free_name(&self) -> u64 {
        let is_used = |name: &u64| self.queue.iter().any(|run| run.name == *name);
        let free = (0..).find(|name| !is_used(name));
        free.expect("fewer runs than numbers")
    }
}

impl Unfinished {
    fn turn(&mut self, matrix: &[f64], outputs: &mut Outputs) -> Stage {
        let system = with_matrix(&self.system, matrix);
        let settings = &self.run.settings;
        let fits = system::tests(&system)
            .and_then(|()| output_tests(system.dimension(), settings, outputs));
        if let Err(refusal) = fits {
            return Stage::Unfit(refusal);
        }
        let answer = self.run.next_window(&system, outputs);
        answer.map_or(Stage::UnderWay, Stage::Over)
    }
}

/// The system with this matrix, where it has one.
fn with_matrix(system: &System, matrix: &[f64]) -> System {
    match *system {
        System::Linear { dimension, .. } => System::Linear {
            dimension,
            matrix: matrix.to_vec(),
        },
        _ => system.clone(),
    }
}

/// The system with a matrix that 9 does not refuse. Above the largest dimension 8 comes before it.
fn with_zeros(system: &System) -> System {
    let d = system.dimension().min(MAX_DIMENSION);
    with_matrix(system, &vec![0.0; d * d])
}

#[cfg(test)]
mod tests;
