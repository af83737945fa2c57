//! The systems that are timed.

use input::{Settings, System};
use oracle::{Circuit, Neighbours, Start};

#[derive(Clone)]
pub struct Problem {
    pub name: String,
    pub system: System,
    pub state: Vec<f64>,
    pub top_k: usize,
    pub step_size: f64,
    /// How the Rust finds the neighbours of a ring's cell.
    neighbours: Neighbours,
}

pub fn lorenz() -> Problem {
    Problem {
        name: "Lorenz K=3".into(),
        system: System::Lorenz {
            sigma: 10.0,
            rho: 28.0,
            beta: 8.0 / 3.0,
        },
        state: vec![1.0, 1.0, 1.0],
        top_k: 3,
        step_size: 0.001,
        neighbours: Neighbours::default(),
    }
}

pub fn rossler() -> Problem {
    let [a, b, c] = [0.2, 0.2, 5.7];
    Problem {
        name: "Rössler K=3".into(),
        system: System::Rossler { a, b, c },
        ..lorenz()
    }
}

pub fn van_der_pol(top_k: usize) -> Problem {
    Problem {
        name: format!("van der Pol K={top_k}"),
        system: System::VanDerPol { mu: 1.0 },
        state: vec![2.0, 0.0],
        top_k,
        ..lorenz()
    }
}

/// A linear system that turns and decays slowly, with no entry 0.
pub fn linear(dimension: usize, top_k: usize) -> Problem {
    let entry = |at: usize| {
        let (i, j) = (at / dimension, at % dimension);
        let turn = ((3 * i + 5 * j) % 7) as f64 - 3.0 + 0.1;
        let sign = if i < j { 0.1 } else { -0.1 };
        if i == j {
            -0.2 - 0.01 * i as f64
        } else {
            sign * turn
        }
    };
    let matrix = (0..dimension * dimension).map(entry).collect();
    Problem {
        name: format!("Linear({dimension}) K={top_k}"),
        system: System::Linear { dimension, matrix },
        state: vec![1.0; dimension],
        top_k,
        ..lorenz()
    }
}

/// A ring with all its rates, beside Rust that finds neighbours in one way.
fn ring(cells: usize, neighbours: Neighbours) -> Problem {
    let forcing = 8.0;
    let mut state = vec![forcing; cells];
    // Equal cells would rest.
    state[0] += 0.01;
    let way = match neighbours {
        Neighbours::Remainder => "%",
        Neighbours::Comparison => "comparison",
    };
    Problem {
        name: format!("Lorenz 96 n={cells} K={cells}, Rust by {way}"),
        system: System::Lorenz96 { cells, forcing },
        state,
        top_k: cells,
        neighbours,
        ..lorenz()
    }
}

/// Rings of three sizes beside both ways in Rust, with the largest ratios that are aimed at.
pub fn rings() -> Vec<(Problem, f64)> {
    let (remainder, comparison) = (Neighbours::Remainder, Neighbours::Comparison);
    vec![
        (ring(4, remainder), 0.8),
        (ring(4, comparison), 1.1),
        (ring(8, remainder), 0.65),
        (ring(8, comparison), 1.0),
        (ring(16, remainder), 0.5),
        (ring(16, comparison), 0.8),
    ]
}

impl Problem {
    pub fn circuit(&self) -> Circuit<'_> {
        Circuit {
            system: &self.system,
            may_evaluate: true,
            neighbours: self.neighbours,
        }
    }

    pub fn start(&self) -> Start<'_> {
        Start {
            time: 0.0,
            state: &self.state,
        }
    }

    pub fn settings(&self, steps_per_window: u64, windows: u64) -> Settings {
        let (k, h) = (self.top_k, self.step_size);
        Settings {
            seed: 1,
            ..Settings::new(k, h, steps_per_window, windows)
        }
    }

    /// Directions that are neither orthogonal nor of one length.
    pub fn directions(&self) -> Vec<f64> {
        let entry = |at: usize| ((7 * at + 3) % 11) as f64 * 0.25 - 1.1 + 0.01 * at as f64;
        (0..self.system.dimension() * self.top_k)
            .map(entry)
            .collect()
    }
}
