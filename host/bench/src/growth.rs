//! How the time of a run grows with windows, steps, directions and dimension.

use crate::problem::{linear, lorenz, Problem};
use crate::race::{seconds, TURNS};
use crate::runs::{Counts, Run};

type Case = (Problem, Counts);

pub fn tables() -> Result<(), String> {
    println!(
        "Growth of the library's runs. Work is windows times steps times (1+K)·d·d, the products"
    );
    println!("of a linear step.\n");
    println!("| run | windows | steps | seconds | to the first | work to the first |");
    println!("|---|---:|---:|---:|---:|---:|");
    let counts = |steps, windows| Counts { steps, windows };
    let by_windows = |windows| (lorenz(), counts(10, windows));
    group(&[by_windows(5_000), by_windows(10_000), by_windows(20_000)]);
    let by_steps = |steps| (lorenz(), counts(steps, 500));
    group(&[by_steps(100), by_steps(200), by_steps(400)]);
    let by_k = |k| (linear(16, k), counts(10, 100));
    group(&[by_k(2), by_k(4), by_k(8), by_k(16)]);
    let by_d = |d| (linear(d, 4), counts(10, 200));
    group(&[by_d(4), by_d(8), by_d(16)]);
    println!();
    Ok(())
}

fn group(cases: &[Case]) {
    let times = least(cases);
    let works: Vec<f64> = cases.iter().map(work).collect();
    for (at, (problem, counts)) in cases.iter().enumerate() {
        let (name, time) = (&problem.name, times[at]);
        let (windows, steps) = (counts.windows, counts.steps);
        let (to_first, work) = (time / times[0], works[at] / works[0]);
        println!("| {name} | {windows} | {steps} | {time:.5} | {to_first:.2} | {work:.2} |");
    }
}

fn work((problem, counts): &Case) -> f64 {
    let d = problem.system.dimension();
    let products = (1 + problem.top_k) * d * d;
    products as f64 * (counts.windows * counts.steps) as f64
}

/// The least seconds of each, taken in turn.
fn least(cases: &[Case]) -> Vec<f64> {
    let run = |(problem, counts): &Case| Run::of(problem.clone(), *counts);
    let mut runs: Vec<Run> = cases.iter().map(run).collect();
    let mut best = vec![f64::INFINITY; runs.len()];
    for _ in 0..TURNS {
        for (run, best) in runs.iter_mut().zip(&mut best) {
            *best = best.min(seconds(&mut || run.make()));
        }
    }
    best
}
