//! The systems.

/// A system, with its parameters.
///
/// Parameters may be any floats, a linear system may have any dimension and any matrix, and a ring
/// any number of cells: what does not fit is refused by the call that uses it.
#[derive(Clone, Debug, PartialEq)]
pub enum System {
    /// x' = σ (y − x), y' = x (ρ − z) − y, z' = x y − β z.
    Lorenz {
        /// σ.
        sigma: f64,
        /// ρ.
        rho: f64,
        /// β.
        beta: f64,
    },
    /// x' = −y − z, y' = x + a y, z' = b + z (x − c).
    Rossler {
        /// a.
        a: f64,
        /// b.
        b: f64,
        /// c.
        c: f64,
    },
    /// x' = y, y' = μ (1 − x²) y − x.
    VanDerPol {
        /// μ.
        mu: f64,
    },
    /// x' = A x.
    Linear {
        /// The number of rows and of columns, 1 to 16.
        dimension: usize,
        /// A, row by row.
        matrix: Vec<f64>,
    },
    /// A ring of cells, xᵢ' = (xᵢ₊₁ − xᵢ₋₂) xᵢ₋₁ − xᵢ + F, indices modulo the number of cells.
    Lorenz96 {
        /// The number of cells, 4 to 16.
        cells: usize,
        /// F.
        forcing: f64,
    },
}

impl System {
    /// The number of entries of a state.
    ///
    /// ```
    /// use field_lyapunov::System;
    ///
    /// assert_eq!(System::VanDerPol { mu: 1.0 }.dimension(), 2);
    /// ```
    #[must_use]
    pub const fn dimension(&self) -> usize {
        match self {
            Self::Lorenz { .. } | Self::Rossler { .. } => 3,
            Self::VanDerPol { .. } => 2,
            Self::Linear { dimension, .. } => *dimension,
            Self::Lorenz96 { cells, .. } => *cells,
        }
    }
}
