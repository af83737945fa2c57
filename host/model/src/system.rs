//! The five systems, with their operations in the order of documents 01 and 02.

use crate::refuse_if;
use input::{Refusal, System, MAX_DIMENSION};

/// A vector of up to 16 entries; those past the dimension are 0 and unused.
pub(crate) type Point = [f64; MAX_DIMENSION];

/// The fewest cells of a ring.
const MIN_CELLS: usize = 4;

/// Tests 7, 8, 25 and 9. No system has both cells and a matrix.
pub(crate) fn tests(system: &System) -> Result<(), Refusal> {
    let d = system.dimension();
    refuse_if(d == 0, Refusal::of(7))?;
    refuse_if(d > MAX_DIMENSION, Refusal::of(8))?;
    match system {
        System::Lorenz96 { cells, .. } => refuse_if(*cells < MIN_CELLS, Refusal::of(25)),
        System::Linear { matrix, .. } => refuse_if(matrix.len() != d * d, Refusal::of(9)),
        _ => Ok(()),
    }
}

/// The derivative of the state at `p`.
pub(crate) fn field(system: &System, p: &Point) -> Point {
    let [x, y, z] = [p[0], p[1], p[2]];
    match *system {
        System::Lorenz { sigma, rho, beta } => {
            let first = sigma * (y - x);
            let second = (x * (rho - z)) - y;
            let third = (x * y) - (beta * z);
            point([first, second, third])
        }
        System::Rossler { a, b, c } => {
            let first = (-y) - z;
            let second = x + (a * y);
            let third = b + (z * (x - c));
            point([first, second, third])
        }
        System::VanDerPol { mu } => {
            let second = ((mu * (1.0 - (x * x))) * y) - x;
            point([y, second])
        }
        System::Linear {
            dimension,
            ref matrix,
        } => product(matrix, dimension, p),
        System::Lorenz96 { cells, forcing } => ring(cells, |around| {
            let [second_before, before, x, after] = around.map(|i| p[i]);
            (((after - second_before) * before) - x) + forcing
        }),
    }
}

/// The derivative of the direction `t` at the state `p`.
pub(crate) fn tangent(system: &System, p: &Point, t: &Point) -> Point {
    let [x, y, z] = [p[0], p[1], p[2]];
    let [u, v, w] = [t[0], t[1], t[2]];
    match *system {
        System::Lorenz { sigma, rho, beta } => {
            let first = sigma * (v - u);
            let second = (((rho - z) * u) - v) - (x * w);
            let third = ((y * u) + (x * v)) - (beta * w);
            point([first, second, third])
        }
        System::Rossler { a, b: _, c } => {
            let first = (-v) - w;
            let second = u + (a * v);
            let third = (z * u) + ((x - c) * w);
            point([first, second, third])
        }
        System::VanDerPol { mu } => {
            let left = ((((-2.0 * mu) * x) * y) - 1.0) * u;
            let right = (mu * (1.0 - (x * x))) * v;
            point([v, left + right])
        }
        System::Linear {
            dimension,
            ref matrix,
        } => product(matrix, dimension, t),
        System::Lorenz96 { cells, .. } => ring(cells, |around| {
            let [x_second_before, x_before, _, x_after] = around.map(|i| p[i]);
            let [u_second_before, u_before, u, u_after] = around.map(|i| t[i]);
            let left = (x_after - x_second_before) * u_before;
            let right = x_before * (u_after - u_second_before);
            (left + right) - u
        }),
    }
}

fn point<const N: usize>(entries: [f64; N]) -> Point {
    let mut out = [0.0; MAX_DIMENSION];
    out[..N].copy_from_slice(&entries);
    out
}

/// The matrix, in rows, times a vector; each sum from +0.0 in index order.
fn product(matrix: &[f64], d: usize, x: &Point) -> Point {
    let mut out = [0.0; MAX_DIMENSION];
    for (i, entry) in out.iter_mut().enumerate().take(d) {
        let mut sum = 0.0;
        for j in 0..d {
            sum += matrix[i * d + j] * x[j];
        }
        *entry = sum;
    }
    out
}

/// An entry for each cell i of a ring, made by `cell` from the indices i − 2, i − 1, i and i + 1
/// modulo the number of cells.
fn ring(cells: usize, cell: impl Fn([usize; 4]) -> f64) -> Point {
    let mut out = [0.0; MAX_DIMENSION];
    for (i, entry) in out.iter_mut().enumerate().take(cells) {
        let (second_before, before) = ((i + cells - 2) % cells, (i + cells - 1) % cells);
        *entry = cell([second_before, before, i, (i + 1) % cells]);
    }
    out
}

#[cfg(test)]
mod tests {
    use super::*;

    const fn of_cells(cells: usize, forcing: f64) -> System {
        System::Lorenz96 { cells, forcing }
    }

    #[test]
    fn a_ring_of_five_cells() {
        let ring = of_cells(5, 8.0);
        let state = point([1.0, 3.0, -2.0, 5.0, 7.0]);
        let direction = point([2.0, -1.0, 4.0, 3.0, -5.0]);
        let along = [
            (3.0 - 5.0) * 7.0 - 1.0 + 8.0,
            (-2.0 - 7.0) * 1.0 - 3.0 + 8.0,
            (5.0 - 1.0) * 3.0 + 2.0 + 8.0,
            (7.0 - 3.0) * -2.0 - 5.0 + 8.0,
            (1.0 + 2.0) * 5.0 - 7.0 + 8.0,
        ];
        assert_eq!(along, [-7.0, -4.0, 22.0, -5.0, 16.0]);
        assert_eq!(field(&ring, &state), point(along));
        let along = [
            (3.0 - 5.0) * -5.0 + 7.0 * (-1.0 - 3.0) - 2.0,
            (-2.0 - 7.0) * 2.0 + 1.0 * (4.0 + 5.0) + 1.0,
            -(5.0 - 1.0) + 3.0 * (3.0 - 2.0) - 4.0,
            (7.0 - 3.0) * 4.0 - 2.0 * (-5.0 + 1.0) - 3.0,
            (1.0 + 2.0) * 3.0 + 5.0 * (2.0 - 4.0) + 5.0,
        ];
        assert_eq!(along, [-20.0, -8.0, -5.0, 21.0, 4.0]);
        assert_eq!(tangent(&ring, &state, &direction), point(along));
    }

    /// With 2^54 as the product, another order of the sums rounds to another result.
    #[test]
    fn a_ring_rounds_in_the_order_written() {
        let ring = of_cells(4, 1.0);
        let [large, square] = [27.0, 54.0].map(f64::exp2);
        let state = point([square, large, 0.0, large]);
        assert_eq!(field(&ring, &state)[0], 1.0);
        let direction = point([square, large, 0.0, 2.0 / large]);
        assert_eq!(tangent(&ring, &state, &direction)[0], 0.0);
    }

    #[test]
    fn cells_of_a_ring() {
        let tested = |cells| super::tests(&of_cells(cells, 8.0));
        assert_eq!(tested(0), Err(Refusal::of(7)));
        for few in 1..4 {
            assert_eq!(tested(few), Err(Refusal::of(25)));
        }
        for fitting in 4..=16 {
            assert_eq!(tested(fitting), Ok(()));
        }
        for many in [17, usize::MAX] {
            assert_eq!(tested(many), Err(Refusal::of(8)));
        }
    }
}
