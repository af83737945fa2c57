//! The step on its own, many in a row.

use crate::problem::{linear, lorenz, rings, rossler, van_der_pol, Problem};
use crate::race::{same_bits, Race, Reference, Target};
use lyapunov_sys::Arguments;
use oracle::{End, Source, Step};
use std::hint::black_box;

pub fn races(source: Reference) -> Result<Vec<Race>, String> {
    let mut problems = vec![
        (lorenz(), 20_000, 0.6),
        (rossler(), 20_000, 0.6),
        (van_der_pol(1), 40_000, 0.65),
        (van_der_pol(2), 40_000, 0.65),
        (linear(16, 16), 400, 0.5),
        (linear(3, 3), 20_000, 0.75),
        (linear(1, 1), 20_000, 0.75),
        (linear(2, 2), 20_000, 0.75),
        (linear(4, 4), 10_000, 0.75),
        (linear(8, 8), 4_000, 0.75),
    ];
    let ring = |(problem, target): (Problem, f64)| {
        // About the same time for every size.
        let steps = 160_000 / problem.state.len().pow(2);
        (problem, steps, target)
    };
    problems.extend(rings().into_iter().map(ring));
    let race = |(problem, steps, target)| race(source, problem, steps, target);
    problems.into_iter().map(race).collect()
}

fn race(source: Reference, problem: Problem, steps: usize, target: f64) -> Result<Race, String> {
    let name = format!("step, {}", problem.name);
    let mine = by_library(&problem, steps);
    if let Some(source) = source {
        same_bits(&name, &mine, &by_source(source, &problem, steps)?)?;
    }
    let copy = problem.clone();
    let other = source.map(|source| -> Box<dyn FnMut()> {
        Box::new(move || {
            let _ = black_box(by_source(source, black_box(&copy), steps));
        })
    });
    Ok(Race {
        name,
        target: Some(Target::Ratio(target)),
        calls: steps,
        library: Box::new(move || {
            black_box(by_library(black_box(&problem), steps));
        }),
        other,
    })
}

/// State and directions after `steps` steps.
fn by_library(problem: &Problem, steps: usize) -> Vec<f64> {
    let (mut state, mut directions) = (problem.state.clone(), problem.directions());
    let (system, h) = (Arguments::from(&problem.system), problem.step_size);
    for _ in 0..steps {
        let refusal =
            lyapunov_sys::step(system, 0.0, &mut state, &mut directions, problem.top_k, h);
        assert_eq!(refusal.number, 0, "{}", problem.name);
    }
    state.extend(directions);
    state
}

fn by_source(source: &dyn Source, problem: &Problem, steps: usize) -> Result<Vec<f64>, String> {
    let (mut state, mut directions) = (problem.state.clone(), problem.directions());
    let step = Step {
        time: 0.0,
        step_size: problem.step_size,
        state: &mut state,
        tangents: &mut directions,
        count: problem.top_k,
    };
    let end = source.steps(problem.circuit(), step, steps);
    if end != End::Done(()) {
        return Err(format!("{}: the source ends with {end:?}", problem.name));
    }
    state.extend(directions);
    Ok(state)
}
