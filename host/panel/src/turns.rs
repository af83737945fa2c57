//! Circuits side by side, by turns of the dispatcher.

use crate::circuit::Circuit;
use crate::measured::{Answer, Stopped, Window};
use crate::progress::{Line, State, Table};
use field_lyapunov::{Dispatcher, LyapunovError};
use lyapunov_sys::interrupt;
use std::rc::Rc;

/// A run that is unfinished in its dispatcher, where its rows are read.
pub struct Unfinished {
    dispatcher: Rc<Dispatcher>,
    name: usize,
}

impl Unfinished {
    pub fn windows(&self) -> impl Iterator<Item = Window<'_>> {
        let rows = self.dispatcher.rows(self.name);
        rows.into_iter().flatten().map(Window::from)
    }

    pub fn rates(&self) -> &[f64] {
        rates(&self.dispatcher, self.name)
    }

    /// The windows that it made, warm-up included.
    pub fn begun(&self) -> u64 {
        self.dispatcher.windows_begun(self.name).unwrap_or(0)
    }
}

/// The rates of an unfinished run after its finished windows; none where there are none.
fn rates(dispatcher: &Dispatcher, name: usize) -> &[f64] {
    let rows = dispatcher.rows(name);
    let last = rows.and_then(|mut rows| rows.next_back());
    last.map_or(&[], |row| row.running_exponents())
}

/// Where the run of a circuit is.
enum Run {
    /// In the dispatcher, under this name.
    UnderWay(usize),
    Over(Answer),
}

/// What the circuits answer. An interrupt stops them after the turn under way. `shown` says whether
/// a terminal shows how far they are.
pub fn answers(circuits: &[Circuit], shown: bool) -> Vec<Answer> {
    interrupt::note();
    let mut dispatcher = Dispatcher::new();
    let mut runs: Vec<Run> = Vec::new();
    for circuit in circuits {
        runs.push(match hand_in(&mut dispatcher, circuit) {
            Ok(name) => Run::UnderWay(name),
            Err(error) => Run::Over(Err(error.into())),
        });
    }
    let mut table = Table::on_terminal(shown);
    while let Some(turn) = dispatcher.turn() {
        let is_it = |run: &&mut Run| matches!(run, Run::UnderWay(name) if *name == turn.name());
        let run = runs.iter_mut().find(is_it);
        if let (Some(run), Some(answer)) = (run, turn.into_answer()) {
            *run = Run::Over(answer.map_err(Stopped::Refused));
        }
        if let Some(table) = &mut table {
            table.refresh(|| lines(circuits, &runs, &dispatcher));
        }
        if interrupt::noted() {
            break;
        }
    }
    let dispatcher = Rc::new(dispatcher);
    let answer = |run| match run {
        Run::Over(answer) => answer,
        Run::UnderWay(name) => Err(Stopped::Interrupted(Unfinished {
            dispatcher: Rc::clone(&dispatcher),
            name,
        })),
    };
    runs.into_iter().map(answer).collect()
}

fn hand_in(dispatcher: &mut Dispatcher, circuit: &Circuit) -> Result<usize, LyapunovError> {
    let config = circuit.config.as_ref().map_err(|error| *error)?;
    dispatcher.hand_in(&circuit.stepper, circuit.time, &circuit.state, config)
}

/// How far each circuit is.
fn lines<'a>(
    circuits: &'a [Circuit],
    runs: &'a [Run],
    dispatcher: &'a Dispatcher,
) -> Vec<Line<'a>> {
    let state = |circuit: &'a Circuit, run: &'a Run| match (run, &circuit.config) {
        (Run::Over(Ok(estimate)), _) => State::Ended(estimate.exponents()),
        (Run::UnderWay(name), Ok(config)) => State::UnderWay {
            begun: dispatcher.windows_begun(*name).unwrap_or(0),
            config,
            rates: rates(dispatcher, *name),
        },
        _ => State::Refused,
    };
    let line = |(circuit, run): (&'a Circuit, &'a Run)| Line {
        name: circuit.name.as_deref().unwrap_or(circuit.choice.offer.name),
        state: state(circuit, run),
    };
    circuits.iter().zip(runs).map(line).collect()
}
