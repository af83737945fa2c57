//! Systems.

use super::{widely, wrong_length};
use crate::circuit::{Circuit, Systems, KINDS, LINEAR, RING, UNUSED};
use crate::random::Random;
use input::System;
use lyapunov_sys::Arguments;

/// A system that is known for its chaos or its limit cycle, near its usual parameters. It is
/// lent a matrix that it does not read. Where only linear systems are drawn, it is one of them.
pub fn known(random: &mut Random) -> Circuit {
    let kind = match random.systems {
        Systems::Base => random.below(3),
        Systems::All => random.pick(&[0, 1, 2, RING]),
        Systems::Of(kind) => kind,
    };
    let usual: &[f64] = match kind {
        0 => &[10.0, 28.0, 8.0 / 3.0],
        1 => &[0.2, 0.2, 5.7],
        2 => &[2.0],
        RING => &[8.0],
        _ => return of_any_kind(random, 16, Random::ordinary),
    };
    let mut parameters = UNUSED.parameters;
    for (parameter, usual) in parameters.iter_mut().zip(usual) {
        *parameter = usual * random.between(0.8, 1.2);
    }
    let dimension = match kind {
        RING => cells(random, 16),
        _ => UNUSED.dimension,
    };
    let unread = random.size_below(3);
    Circuit::of_arguments(Arguments {
        kind,
        parameters,
        dimension,
        matrix: &vec![f64::NAN; unread],
    })
}

/// A system of any kind whose parameters come from `parameter`.
pub fn of_any_kind(
    random: &mut Random,
    largest: usize,
    parameter: fn(&mut Random) -> f64,
) -> Circuit {
    let parameters = [parameter(random), parameter(random), parameter(random)];
    let kind = match random.systems {
        Systems::Base => random.below(5).min(LINEAR),
        Systems::All => random.pick(&[0, 1, 2, LINEAR, LINEAR, RING]),
        Systems::Of(kind) => kind,
    };
    match kind {
        LINEAR => {
            let d = dimension(random, largest);
            linear(d, random.list(d * d, parameter))
        }
        RING => ring(cells(random, largest), parameters[0]),
        _ => {
            let arguments = Arguments {
                kind,
                parameters,
                ..UNUSED
            };
            Circuit::of(arguments.system())
        }
    }
}

/// A dimension up to `largest`; small ones are more frequent.
pub fn dimension(random: &mut Random, largest: usize) -> usize {
    let small = random.pick(&[1, 2, 2, 3, 3, 4]);
    if widely(random, 4) {
        1 + random.size_below(largest)
    } else {
        small.min(largest)
    }
}

/// A number of cells from 4 to `largest`, or 4; small ones are more frequent.
pub fn cells(random: &mut Random, largest: usize) -> usize {
    let largest = largest.max(4);
    if random.one_in(2) {
        4 + random.size_below(largest - 3)
    } else {
        random.pick(&[4, 4, 5, 5, 6]).min(largest)
    }
}

pub fn ring(cells: usize, forcing: f64) -> Circuit {
    Circuit::of(System::Lorenz96 { cells, forcing })
}

pub fn linear(dimension: usize, matrix: Vec<f64>) -> Circuit {
    Circuit::of(System::Linear { dimension, matrix })
}

/// A linear system whose matrix has `entries` on its diagonal.
pub fn diagonal(entries: &[f64]) -> Circuit {
    let d = entries.len();
    let mut matrix = vec![0.0; d * d];
    for (i, entry) in entries.iter().enumerate() {
        matrix[i * d + i] = *entry;
    }
    linear(d, matrix)
}

/// A linear system of dimension 0, a ring of no cells, or a system of a kind that the C interface
/// does not have.
pub fn of_dimension_zero(random: &mut Random) -> Circuit {
    let known = KINDS.len() as u64;
    let sorts = if has_rings(random) { 3 } else { 2 };
    let kind = match random.below(sorts) {
        0 => LINEAR,
        1 => random.pick(&[known, known + 1, 1 << 32, u64::MAX]),
        _ => RING,
    };
    let dimension = if kind < known { 0 } else { UNUSED.dimension };
    let length = random.size_below(2);
    Circuit::of_arguments(Arguments {
        kind,
        dimension,
        matrix: &vec![0.0; length],
        ..UNUSED
    })
}

/// A linear system or a ring whose dimension is above the limit.
pub fn of_large_dimension(random: &mut Random) -> Circuit {
    let d = random.pick(&[17, 18, 1 << 32, usize::MAX]);
    if has_rings(random) && random.one_in(2) {
        return ring(d, 8.0);
    }
    let matrix = if d <= 18 { d * d } else { 1 };
    linear(d, vec![0.0; matrix])
}

/// A ring with fewer than 4 cells.
pub fn of_few_cells(random: &mut Random) -> Circuit {
    ring(1 + random.size_below(3), random.ordinary())
}

pub fn has_rings(random: &Random) -> bool {
    matches!(random.systems, Systems::All | Systems::Of(RING))
}

/// A linear system with a matrix of another size, of the dimension of `circuit` where that is
/// linear. A ring whose size is refused keeps it: no matrix that it is lent is tested.
pub fn of_unfit_matrix(circuit: &Circuit, random: &mut Random) -> Circuit {
    let d = match (circuit.kind(), &circuit.system) {
        (Some(_), System::Linear { dimension, .. }) => *dimension,
        (Some(kind), System::Lorenz96 { cells, .. }) if !kind.dimensions.contains(cells) => {
            return circuit.with_matrix(&vec![f64::NAN; random.size_below(20)]);
        }
        _ => 1 + random.size_below(16),
    };
    let length = wrong_length(random, d.min(20) * d.min(20));
    linear(d, vec![0.0; length])
}
