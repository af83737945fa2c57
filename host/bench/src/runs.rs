//! Whole runs.

use crate::problem::{linear, lorenz, rings, rossler, van_der_pol, Problem};
use crate::race::{same_bits, Race, Reference, Target};
use input::{Settings, System};
use lyapunov_sys::Outputs;
use oracle::{End, Entry};
use std::hint::black_box;

/// A run's counts.
#[derive(Clone, Copy)]
pub struct Counts {
    pub steps: u64,
    pub windows: u64,
}

impl Counts {
    pub fn pace(self) -> String {
        let ending = if self.steps == 1 { "" } else { "s" };
        format!("{} step{ending} a window", self.steps)
    }
}

pub fn races(source: Reference) -> Result<Vec<Race>, String> {
    let counts = |steps, windows| Counts { steps, windows };
    let mut problems = vec![
        (lorenz(), counts(10, 6_000), 0.6),
        (rossler(), counts(10, 6_000), 0.6),
        (lorenz(), counts(1, 20_000), 0.8),
        (rossler(), counts(1, 20_000), 0.8),
        (van_der_pol(1), counts(10, 10_000), 0.6),
        (linear(16, 16), counts(10, 120), 0.6),
        (linear(3, 3), counts(10, 6_000), 0.75),
    ];
    let ring = |(problem, target): (Problem, f64)| {
        // About the same time for every size.
        let windows = 32_000 / problem.state.len().pow(2) as u64;
        (problem, counts(10, windows), target)
    };
    problems.extend(rings().into_iter().map(ring));
    let race = |(mut problem, counts, target): (Problem, Counts, f64)| {
        problem.step_size = 0.01;
        race(source, problem, counts, target)
    };
    problems.into_iter().map(race).collect()
}

fn race(source: Reference, problem: Problem, counts: Counts, target: f64) -> Result<Race, String> {
    let name = format!("run, {}, {}", problem.name, counts.pace());
    let mut run = Run::of(problem.clone(), counts);
    run.make();
    let settings = run.settings;
    if let Some(source) = source {
        let (circuit, start) = (problem.circuit(), problem.start());
        let whole = source.run(Entry::SpectrumAt, circuit, start, &settings);
        let End::Done(spectrum) = whole.end else {
            return Err(format!("{name}: the source ends with {:?}", whole.end));
        };
        same_bits(&name, &run.rows, &spectrum.rows)?;
        same_bits(&name, &run.exponents, &spectrum.exponents)?;
        same_bits(&name, &run.final_state, &spectrum.final_state)?;
    }
    let other = source.map(|source| -> Box<dyn FnMut()> {
        Box::new(move || {
            let problem = black_box(&problem);
            let exponents = source.exponents(problem.circuit(), problem.start(), &settings);
            let _ = black_box(exponents);
        })
    });
    Ok(Race {
        name,
        target: Some(Target::Ratio(target)),
        calls: (counts.steps * counts.windows) as usize,
        library: Box::new(move || run.make()),
        other,
    })
}

/// A run of the library, with its memory.
pub struct Run {
    problem: Problem,
    settings: Settings,
    pub rows: Vec<f64>,
    pub exponents: Vec<f64>,
    pub final_state: Vec<f64>,
    counts: [u64; 19],
    times: [f64; 2],
}

impl Run {
    pub fn of(problem: Problem, counts: Counts) -> Self {
        let settings = problem.settings(counts.steps, counts.windows);
        Self {
            rows: vec![0.0; settings.rows_length()],
            exponents: vec![0.0; settings.top_k],
            final_state: vec![0.0; problem.system.dimension()],
            counts: [0; 19],
            times: [0.0; 2],
            problem,
            settings,
        }
    }

    pub fn make(&mut self) {
        self.call(|system, state, settings, outputs| {
            lyapunov_sys::estimate_spectrum_at(system, 0.0, state, settings, outputs)
        });
    }

    /// An error where another run's results differ in a bit.
    pub fn same(&self, name: &str, other: &Self) -> Result<(), String> {
        same_bits(name, &self.rows, &other.rows)?;
        self.same_ends(name, other)
    }

    /// The same without the rows.
    pub fn same_ends(&self, name: &str, other: &Self) -> Result<(), String> {
        same_bits(name, &self.exponents, &other.exponents)?;
        same_bits(name, &self.final_state, &other.final_state)
    }

    /// A call that takes what a run from time 0 does; it must not be refused.
    pub fn call(&mut self, call: impl FnOnce(&System, &[f64], &Settings, &mut Outputs) -> u64) {
        let problem = black_box(&self.problem);
        let mut outputs = Outputs {
            rows: &mut self.rows,
            exponents: &mut self.exponents,
            final_state: &mut self.final_state,
            counts: &mut self.counts,
            times: &mut self.times,
        };
        let (system, state) = (&problem.system, &problem.state);
        let number = call(system, state, &self.settings, &mut outputs);
        assert_eq!(number, 0, "{}", problem.name);
    }
}
