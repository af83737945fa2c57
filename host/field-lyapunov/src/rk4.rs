//! The step.

use crate::error::answered;
use crate::{Result, System};

/// The stepper: the Runge-Kutta method of fourth order, for a state and directions along it.
#[derive(Clone, Debug, PartialEq)]
pub struct Rk4 {
    system: System,
}

impl Rk4 {
    /// A stepper of `system`.
    #[must_use]
    pub const fn new(system: System) -> Self {
        Self { system }
    }

    /// The system.
    #[must_use]
    pub const fn system(&self) -> &System {
        &self.system
    }

    /// The system, to change its parameters.
    #[must_use]
    pub fn system_mut(&mut self) -> &mut System {
        &mut self.system
    }

    /// The system, taken back.
    #[must_use]
    pub fn into_inner(self) -> System {
        self.system
    }

    /// The number of entries of a state.
    #[must_use]
    pub const fn dimension(&self) -> usize {
        self.system.dimension()
    }

    /// Moves `state` and `tangent_count` directions, which lie one after the other, by one step.
    ///
    /// The time must be finite and plays no other part. On
    /// [`NonFiniteState`](crate::LyapunovError::NonFiniteState) and
    /// [`NonFiniteTangent`](crate::LyapunovError::NonFiniteTangent) both slices hold the new
    /// values; any other refusal leaves them as they are.
    ///
    /// ```
    /// use field_lyapunov::{Rk4, System};
    ///
    /// let growth = Rk4::new(System::Linear { dimension: 1, matrix: vec![1.0] });
    /// let (mut state, mut tangents) = ([1.0], [-1.0]);
    /// growth.step(0.0, &mut state, &mut tangents, 1, 6.0)?;
    /// assert_eq!((state, tangents), ([115.0], [-115.0]));
    /// # Ok::<(), field_lyapunov::LyapunovError>(())
    /// ```
    pub fn step(
        &self,
        time: f64,
        state: &mut [f64],
        tangents: &mut [f64],
        tangent_count: usize,
        step_size: f64,
    ) -> Result<()> {
        let system = &self.system;
        let refusal = lyapunov_sys::step(system, time, state, tangents, tangent_count, step_size);
        answered(refusal)
    }
}

impl From<System> for Rk4 {
    fn from(system: System) -> Self {
        Self::new(system)
    }
}
