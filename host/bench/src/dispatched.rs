//! Eight runs side by side, beside the same runs one after the other.

use crate::problem::lorenz;
use crate::race::{Race, Target};
use crate::runs::{Counts, Run};
use lyapunov_sys::{DispatcherMemory, DISPATCHER_RUNS};

pub fn races() -> Result<Vec<Race>, String> {
    let counts = |steps, windows| Counts { steps, windows };
    let asked = [(counts(10, 500), 1.05), (counts(1, 2_000), 1.30)];
    asked
        .into_iter()
        .map(|(counts, target)| race(counts, target))
        .collect()
}

/// Runs from different starts.
fn runs(counts: Counts) -> Vec<Run> {
    let run = |name: usize| {
        let mut problem = lorenz();
        problem.step_size = 0.01;
        problem.state[0] += name as f64 / 8.0;
        Run::of(problem, counts)
    };
    (0..DISPATCHER_RUNS).map(run).collect()
}

fn race(counts: Counts, target: f64) -> Result<Race, String> {
    let name = format!("eight runs by turns, Lorenz K=3, {}", counts.pace());
    let (mut by_turns, mut alone) = (runs(counts), runs(counts));
    let mut dispatcher = DispatcherMemory::empty();
    dispatch(&mut dispatcher, &mut by_turns);
    for (left, right) in by_turns.iter().zip(&mut alone) {
        right.make();
        left.same(&name, right)?;
    }
    Ok(Race {
        name,
        target: Some(Target::Ratio(target)),
        calls: DISPATCHER_RUNS * (counts.steps * counts.windows) as usize,
        library: Box::new(move || dispatch(&mut dispatcher, &mut by_turns)),
        other: Some(Box::new(move || alone.iter_mut().for_each(Run::make))),
    })
}

/// Hands in the runs, which are named in their order, and makes turns until nobody is next.
fn dispatch(dispatcher: &mut DispatcherMemory, runs: &mut [Run]) {
    for run in runs.iter_mut() {
        run.call(|system, state, settings, _| {
            let memory = dispatcher.lent();
            lyapunov_sys::hand_in(memory, system, 0.0, state, settings, &mut 0).number
        });
    }
    loop {
        let name = lyapunov_sys::next(&dispatcher.queue) as usize;
        let Some(run) = runs.get_mut(name) else {
            return;
        };
        run.call(|_, _, _, outputs| {
            lyapunov_sys::turn(dispatcher.lent(), &[], outputs, &mut [0; 4])
        });
    }
}
