//! States kept under numbers: document 02's request c.
//!
//! Nothing of a run's end is held here, only what was handed in. A going on makes the one run of all
//! windows from its start again, and hands out the later rows.

use crate::refuse_if;
use crate::run::{estimate, output_tests, refused, validate, Estimate, Input, Outputs};
use input::{Refusal, Settings, System};
use std::collections::BTreeMap;

/// The most states that are kept.
const MOST: usize = 8;

/// What the last keep under a number that was not refused was handed.
#[derive(Clone, Debug)]
struct Kept {
    system: System,
    time: f64,
    state: Vec<f64>,
    settings: Settings,
}

/// The kept states, by number.
#[derive(Clone, Debug, Default)]
pub struct Store {
    kept: BTreeMap<u8, Kept>,
}

impl Store {
    /// The measured windows of what is kept under `number`.
    pub fn windows(&self, number: u8) -> Option<u64> {
        let kept = self.kept.get(&number)?;
        Some(kept.settings.windows)
    }

    /// A run that is kept under `number` where it is not refused.
    pub fn keep(&mut self, number: u8, input: Input, outputs: &mut Outputs) -> Estimate {
        let others = self.kept.keys().filter(|other| **other != number).count();
        if others >= MOST {
            return refused(Refusal::of(27), 0, 0);
        }
        let answer = estimate(
            input.system,
            input.time,
            input.state,
            input.settings,
            outputs,
        );
        if answer.refusal.is_none() {
            self.kept.insert(number, Kept::of(input));
        }
        answer
    }

    /// Goes on from what is kept under `number` for the windows of the input. `None`: the input
    /// passes all tests and is not the one of the keep, so that the answer is free.
    pub fn go_on(&self, number: u8, input: Input, outputs: &mut Outputs) -> Option<Estimate> {
        let Some(kept) = self.kept.get(&number) else {
            return Some(refused(Refusal::of(26), 0, 0));
        };
        let earlier = kept.settings.windows;
        if let Err(refusal) = going_on_tests(earlier, input, outputs) {
            return Some(refused(refusal, 0, 0));
        }
        if numbers(kept.input()) != numbers(input) {
            return None;
        }
        Some(later_part(earlier, input, outputs))
    }

    /// Forgets what is kept under `number`.
    pub fn forget(&mut self, number: u8) -> Result<(), Refusal> {
        let forgotten = self.kept.remove(&number);
        refuse_if(forgotten.is_none(), Refusal::of(26))
    }
}

/// Tests 1 to 13: 4 and 13 look at the windows that are brought, 5 at all of them.
fn going_on_tests(earlier: u64, input: Input, outputs: &Outputs) -> Result<(), Refusal> {
    let brought = input.settings.windows;
    let mut all = *input.settings;
    if brought > 0 {
        all.windows = earlier.saturating_add(brought);
    }
    validate(input.system, input.time, input.state, &all)?;
    output_tests(input.state.len(), input.settings, outputs)
}

/// The run of all windows, with the rows after the `earlier` ones written from place 0.
fn later_part(earlier: u64, input: Input, outputs: &mut Outputs) -> Estimate {
    let mut all = *input.settings;
    all.windows += earlier;
    let mut rows = vec![0.0; all.rows_length()];
    let mut whole = Outputs {
        rows: &mut rows,
        exponents: outputs.exponents,
        final_state: outputs.final_state,
    };
    let answer = estimate(input.system, input.time, input.state, &all, &mut whole);
    let width = all.row_width();
    let (begin, end) = (earlier as usize * width, answer.finished as usize * width);
    let later = &rows[begin..end];
    outputs.rows[..later.len()].copy_from_slice(later);
    answer
}

impl Kept {
    fn of(input: Input) -> Self {
        Self {
            system: input.system.clone(),
            time: input.time,
            state: input.state.to_vec(),
            settings: *input.settings,
        }
    }

    fn input(&self) -> Input<'_> {
        Input {
            system: &self.system,
            time: self.time,
            state: &self.state,
            settings: &self.settings,
        }
    }
}

/// All numbers of the input but its windows, floats by their bits. Before each list stands its
/// length, so that two inputs with the same numbers are the same.
fn numbers(input: Input) -> Vec<u64> {
    let (kind, size, floats) = match input.system {
        System::Lorenz { sigma, rho, beta } => (0, 3, vec![*sigma, *rho, *beta]),
        System::Rossler { a, b, c } => (1, 3, vec![*a, *b, *c]),
        System::VanDerPol { mu } => (2, 2, vec![*mu]),
        System::Linear { dimension, matrix } => (3, *dimension, matrix.clone()),
        System::Lorenz96 { cells, forcing } => (4, *cells, vec![*forcing]),
    };
    let settings = input.settings;
    let mut numbers = vec![
        kind,
        size as u64,
        input.time.to_bits(),
        settings.top_k as u64,
        settings.step_size.to_bits(),
        settings.steps_per_window,
        settings.transient_windows,
        settings.transient_steps(),
        settings.seed,
    ];
    for list in [&floats[..], input.state] {
        numbers.push(list.len() as u64);
        numbers.extend(list.iter().map(|x| x.to_bits()));
    }
    numbers
}

#[cfg(test)]
mod tests;
