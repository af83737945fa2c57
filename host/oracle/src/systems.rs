//! The four systems of document 01 and the ring of document 02, in their order of operations, for
//! the source's stepper.

use crate::{Circuit, ContinuousSystem, LyapunovError, Neighbours, Result};
use input::System;

/// The message of the error that stops the source at an evaluation it may not make.
const STOPPED: &str = "not to be evaluated";

pub fn is_stop(error: &LyapunovError) -> bool {
    matches!(error, LyapunovError::System { message } if *message == STOPPED)
}

/// A system of the source's own, since one behind a reference is a few per cent slower.
pub struct Evaluated {
    system: System,
    may_evaluate: bool,
    neighbours: Neighbours,
}

impl From<Circuit<'_>> for Evaluated {
    fn from(circuit: Circuit) -> Self {
        Self {
            system: circuit.system.clone(),
            may_evaluate: circuit.may_evaluate,
            neighbours: circuit.neighbours,
        }
    }
}

impl ContinuousSystem for Evaluated {
    fn dimension(&self) -> usize {
        self.system.dimension()
    }

    fn vector_field(&self, _time: f64, state: &[f64], output: &mut [f64]) -> Result<()> {
        if !self.may_evaluate {
            return Err(LyapunovError::system(STOPPED));
        }
        match (&self.system, state) {
            (&System::Lorenz { sigma, rho, beta }, &[x, y, z]) => {
                output[0] = sigma * (y - x);
                output[1] = x * (rho - z) - y;
                output[2] = x * y - beta * z;
            }
            (&System::Rossler { a, b, c }, &[x, y, z]) => {
                output[0] = -y - z;
                output[1] = x + a * y;
                output[2] = b + z * (x - c);
            }
            (&System::VanDerPol { mu }, &[x, y]) => {
                output[0] = y;
                output[1] = mu * (1.0 - x * x) * y - x;
            }
            (System::Linear { matrix, .. }, _) => multiply(matrix, state, output),
            (&System::Lorenz96 { forcing, .. }, _) => {
                ring_field(self.neighbours, forcing, state, output);
            }
            _ => unreachable!("the stepper lends a state of the system's dimension"),
        }
        Ok(())
    }

    fn jacobian_vector_product(
        &self,
        _time: f64,
        state: &[f64],
        direction: &[f64],
        output: &mut [f64],
    ) -> Result<()> {
        match (&self.system, state, direction) {
            (&System::Lorenz { sigma, rho, beta }, &[x, y, z], &[u, v, w]) => {
                output[0] = sigma * (v - u);
                output[1] = (rho - z) * u - v - x * w;
                output[2] = y * u + x * v - beta * w;
            }
            (&System::Rossler { a, c, .. }, &[x, _, z], &[u, v, w]) => {
                output[0] = -v - w;
                output[1] = u + a * v;
                output[2] = z * u + (x - c) * w;
            }
            (&System::VanDerPol { mu }, &[x, y], &[u, v]) => {
                output[0] = v;
                output[1] = (-2.0 * mu * x * y - 1.0) * u + mu * (1.0 - x * x) * v;
            }
            (System::Linear { matrix, .. }, _, _) => multiply(matrix, direction, output),
            (System::Lorenz96 { .. }, _, _) => {
                ring_tangent(self.neighbours, state, direction, output);
            }
            _ => unreachable!("the stepper lends vectors of the system's dimension"),
        }
        Ok(())
    }
}

/// Each entry is a row of the matrix times the vector, summed from +0.0 in index order.
fn multiply(matrix: &[f64], vector: &[f64], output: &mut [f64]) {
    for (row, entry) in matrix.chunks_exact(vector.len()).zip(output) {
        *entry = row.iter().zip(vector).fold(0.0, |sum, (a, x)| sum + a * x);
    }
}

/// The indices i − 2, i − 1, i and i + 1 on a ring.
type Around = [usize; 4];

// Each loop below calls these four itself, and they are always inlined. As a parameter of one loop,
// or inlined later, they cost the comparisons half their speed.

#[inline(always)]
fn by_remainder(i: usize, n: usize) -> Around {
    [(i + n - 2) % n, (i + n - 1) % n, i, (i + 1) % n]
}

#[inline(always)]
fn by_comparison(i: usize, n: usize) -> Around {
    let second_before = if i < 2 { i + n - 2 } else { i - 2 };
    let before = if i == 0 { n - 1 } else { i - 1 };
    let after = if i + 1 == n { 0 } else { i + 1 };
    [second_before, before, i, after]
}

#[inline(always)]
fn cell_field(x: &[f64], forcing: f64, [j, k, i, l]: Around) -> f64 {
    (x[l] - x[j]) * x[k] - x[i] + forcing
}

#[inline(always)]
fn cell_tangent(x: &[f64], u: &[f64], [j, k, i, l]: Around) -> f64 {
    (x[l] - x[j]) * u[k] + x[k] * (u[l] - u[j]) - u[i]
}

fn ring_field(neighbours: Neighbours, forcing: f64, x: &[f64], output: &mut [f64]) {
    let n = x.len();
    let cells = output.iter_mut().enumerate().take(n);
    match neighbours {
        Neighbours::Remainder => {
            for (i, cell) in cells {
                *cell = cell_field(x, forcing, by_remainder(i, n));
            }
        }
        Neighbours::Comparison => {
            for (i, cell) in cells {
                *cell = cell_field(x, forcing, by_comparison(i, n));
            }
        }
    }
}

fn ring_tangent(neighbours: Neighbours, x: &[f64], u: &[f64], output: &mut [f64]) {
    let n = x.len();
    let cells = output.iter_mut().enumerate().take(n);
    match neighbours {
        Neighbours::Remainder => {
            for (i, cell) in cells {
                *cell = cell_tangent(x, u, by_remainder(i, n));
            }
        }
        Neighbours::Comparison => {
            for (i, cell) in cells {
                *cell = cell_tangent(x, u, by_comparison(i, n));
            }
        }
    }
}

#[cfg(test)]
mod tests {
    use super::*;

    /// The derivatives of a state and of a direction of a ring.
    fn derivatives(neighbours: Neighbours, state: &[f64], direction: &[f64]) -> [Vec<f64>; 2] {
        let cells = state.len();
        let system = Evaluated::from(Circuit {
            system: &System::Lorenz96 {
                cells,
                forcing: 8.0,
            },
            may_evaluate: true,
            neighbours,
        });
        let [mut field, mut tangent] = [vec![0.0; cells], vec![0.0; cells]];
        system.vector_field(0.0, state, &mut field).unwrap();
        system
            .jacobian_vector_product(0.0, state, direction, &mut tangent)
            .unwrap();
        [field, tangent]
    }

    #[test]
    fn a_ring_of_whole_numbers() {
        let state = [1.0, 3.0, -2.0, 5.0, 7.0];
        let direction = [2.0, -1.0, 4.0, 3.0, -5.0];
        for neighbours in [Neighbours::Remainder, Neighbours::Comparison] {
            let [field, tangent] = derivatives(neighbours, &state, &direction);
            assert_eq!(field, [-7.0, -4.0, 22.0, -5.0, 16.0]);
            assert_eq!(tangent, [-20.0, -8.0, -5.0, 21.0, 4.0]);
        }
    }

    #[test]
    fn both_forms_of_a_ring_have_the_same_bits() {
        let state = [0.1, -2.3, 1e16, 3.7e-5, 6.9];
        let direction = [-0.3, 1.1e-7, 0.7, -4.9, 1e15];
        let by = |neighbours| {
            let both = derivatives(neighbours, &state, &direction);
            both.map(|values| values.into_iter().map(f64::to_bits).collect::<Vec<_>>())
        };
        assert_eq!(by(Neighbours::Remainder), by(Neighbours::Comparison));
    }

    #[test]
    fn both_forms_find_the_same_neighbours() {
        for n in 4..=16 {
            for i in 0..n {
                assert_eq!(by_remainder(i, n), by_comparison(i, n));
            }
        }
    }
}
