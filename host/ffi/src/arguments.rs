//! A system in the arguments of the C interface.

use input::System;

/// A system as the C interface takes it.
#[derive(Clone, Copy, Debug)]
pub struct Arguments<'a> {
    /// 0 Lorenz, 1 Rössler, 2 van der Pol, 3 linear, 4 a ring; another has dimension 0.
    pub kind: u64,
    pub parameters: [f64; 3],
    /// Read for a linear system, and for a ring as the number of its cells.
    pub dimension: usize,
    /// Read for a linear system only.
    pub matrix: &'a [f64],
}

impl<'a> Arguments<'a> {
    /// The arguments of `system`. Those that it does not use are taken from `unused`.
    pub fn over(system: &'a System, unused: Self) -> Self {
        let [_, second, third] = unused.parameters;
        let of = |kind, parameters| Self {
            kind,
            parameters,
            ..unused
        };
        match *system {
            System::Lorenz { sigma, rho, beta } => of(0, [sigma, rho, beta]),
            System::Rossler { a, b, c } => of(1, [a, b, c]),
            System::VanDerPol { mu } => of(2, [mu, second, third]),
            System::Linear {
                dimension,
                ref matrix,
            } => Self {
                dimension,
                matrix,
                ..of(3, unused.parameters)
            },
            System::Lorenz96 { cells, forcing } => Self {
                dimension: cells,
                ..of(4, [forcing, second, third])
            },
        }
    }

    /// The system that the arguments mean.
    pub fn system(&self) -> System {
        let [a, b, c] = self.parameters;
        match self.kind {
            0 => System::Lorenz {
                sigma: a,
                rho: b,
                beta: c,
            },
            1 => System::Rossler { a, b, c },
            2 => System::VanDerPol { mu: a },
            3 => System::Linear {
                dimension: self.dimension,
                matrix: self.matrix.to_vec(),
            },
            4 => System::Lorenz96 {
                cells: self.dimension,
                forcing: a,
            },
            _ => System::Linear {
                dimension: 0,
                matrix: vec![],
            },
        }
    }
}

/// What the system does not use is 0 or empty.
impl<'a> From<&'a System> for Arguments<'a> {
    fn from(system: &'a System) -> Self {
        let unused = Self {
            kind: 0,
            parameters: [0.0; 3],
            dimension: 0,
            matrix: &[],
        };
        Self::over(system, unused)
    }
}

#[cfg(test)]
mod tests {
    use super::*;

    #[test]
    fn every_kind_is_read_back() {
        let unused = Arguments {
            kind: 9,
            parameters: [1.0, 2.0, 3.0],
            dimension: 2,
            matrix: &[4.0],
        };
        for kind in 0..5 {
            let given = Arguments { kind, ..unused };
            let system = given.system();
            let over = Arguments::over(&system, unused);
            assert_eq!(over.kind, kind);
            assert_eq!(over.parameters, given.parameters);
            assert_eq!((over.dimension, over.matrix), (2, given.matrix));
            assert_eq!(Arguments::from(&system).system(), system);
        }
        for kind in [5, 9, u64::MAX] {
            let unknown = Arguments { kind, ..unused };
            assert_eq!(unknown.system().dimension(), 0);
        }
    }

    #[test]
    fn a_ring_is_its_cells_and_its_forcing() {
        let (cells, forcing) = (5, 8.0);
        let ring = System::Lorenz96 { cells, forcing };
        let arguments = Arguments::from(&ring);
        assert_eq!((arguments.kind, arguments.dimension), (4, 5));
        assert_eq!(arguments.parameters, [8.0, 0.0, 0.0]);
        assert_eq!(arguments.matrix, []);
    }
}
