//! One Runge-Kutta step of a state and its directions.

use crate::system::{field, tangent, tests, Point};
use crate::{first_not_finite, refuse_if};
use input::{Refusal, System, MAX_DIMENSION};

/// A step on its own: tests 7, 8, 25, 9, 10, 19, 6, 2, then 16 and 17 on the moved values.
pub fn step(
    system: &System,
    time: f64,
    h: f64,
    state: &mut [f64],
    directions: &mut [f64],
    count: usize,
) -> Result<(), Refusal> {
    tests(system)?;
    let d = system.dimension();
    refuse_if(state.len() != d, Refusal::of(10))?;
    let fitting = count <= 16 && directions.len() == d * count;
    refuse_if(!fitting, Refusal::of(19))?;
    refuse_if(!time.is_finite(), Refusal::of(6))?;
    refuse_if(!is_step_size(h), Refusal::of(2))?;
    advance(system, h, state, directions)
}

pub(crate) fn is_step_size(h: f64) -> bool {
    h.is_finite() && h > 0.0
}

/// The step itself, with tests 16 and 17.
pub(crate) fn advance(
    system: &System,
    h: f64,
    state: &mut [f64],
    directions: &mut [f64],
) -> Result<(), Refusal> {
    let d = state.len();
    let (stages, moved) = runge_kutta(state, h, |_, p| field(system, p));
    for direction in directions.chunks_mut(d) {
        let along = |stage: usize, t: &Point| tangent(system, &stages[stage], t);
        let (_, moved) = runge_kutta(direction, h, along);
        direction.copy_from_slice(&moved[..d]);
    }
    state.copy_from_slice(&moved[..d]);
    if let Some(index) = first_not_finite(state) {
        return Err(Refusal::at(16, index));
    }
    match first_not_finite(directions) {
        Some(index) => Err(Refusal::at(17, index)),
        None => Ok(()),
    }
}

/// Moves a vector whose derivative at a stage (from 0) and a point is `derivative`; answers the
/// four stage points and the moved vector.
fn runge_kutta(
    values: &[f64],
    h: f64,
    derivative: impl Fn(usize, &Point) -> Point,
) -> ([Point; 4], Point) {
    let d = values.len();
    let mut base = [0.0; MAX_DIMENSION];
    base[..d].copy_from_slice(values);
    let mut points = [base; 4];
    let mut k = [base; 4];
    for stage in 0..4 {
        if stage > 0 {
            let scale = if stage == 3 { h } else { 0.5 * h };
            for i in 0..d {
                points[stage][i] = base[i] + scale * k[stage - 1][i];
            }
        }
        k[stage] = derivative(stage, &points[stage]);
    }
    let mut moved = [0.0; MAX_DIMENSION];
    for i in 0..d {
        let sum = ((k[0][i] + 2.0 * k[1][i]) + 2.0 * k[2][i]) + k[3][i];
        moved[i] = base[i] + (h / 6.0) * sum;
    }
    (points, moved)
}

#[cfg(test)]
mod tests {
    use super::*;

    fn linear(dimension: usize, matrix: &[f64]) -> System {
        let matrix = matrix.to_vec();
        System::Linear { dimension, matrix }
    }

    #[test]
    fn marked_step() {
        let mut state = [1.0];
        let answer = step(&linear(1, &[1.0]), 0.0, 6.0, &mut state, &mut [], 0);
        assert_eq!(answer, Ok(()));
        assert_eq!(state, [115.0]);
    }

    #[test]
    fn directions_move_with_the_state() {
        let mut state = [1.0];
        let mut directions = [1.0, -1.0];
        let answer = step(&linear(1, &[1.0]), 0.0, 6.0, &mut state, &mut directions, 2);
        assert_eq!(answer, Ok(()));
        assert_eq!(directions, [115.0, -115.0]);
    }

    #[test]
    fn tests_come_in_order() {
        let ask = |d: usize, n: usize, state: usize, count: usize, time: f64, h: f64| {
            let matrix = vec![0.0; n];
            let mut state = vec![0.0; state];
            let mut directions = vec![0.0; 2 * count.min(17)];
            let system = linear(d, &matrix);
            step(&system, time, h, &mut state, &mut directions, count)
        };
        assert_eq!(ask(0, 1, 1, 17, f64::NAN, 0.0), Err(Refusal::of(7)));
        assert_eq!(ask(17, 1, 1, 17, f64::NAN, 0.0), Err(Refusal::of(8)));
        assert_eq!(ask(2, 1, 1, 17, f64::NAN, 0.0), Err(Refusal::of(9)));
        assert_eq!(ask(2, 4, 1, 17, f64::NAN, 0.0), Err(Refusal::of(10)));
        assert_eq!(ask(2, 4, 2, 17, f64::NAN, 0.0), Err(Refusal::of(19)));
        assert_eq!(ask(2, 4, 2, 16, f64::NAN, 0.0), Err(Refusal::of(6)));
        assert_eq!(ask(2, 4, 2, 16, 0.0, 0.0), Err(Refusal::of(2)));
        assert_eq!(ask(2, 4, 2, 16, 0.0, 1.0), Ok(()));
    }

    #[test]
    fn tests_of_a_ring_come_in_order() {
        let ask = |cells: usize, state: usize, count: usize, time: f64, h: f64| {
            let forcing = 8.0;
            let mut state = vec![0.0; state];
            let mut directions = vec![0.0; 4 * count.min(17)];
            let system = System::Lorenz96 { cells, forcing };
            step(&system, time, h, &mut state, &mut directions, count)
        };
        assert_eq!(ask(0, 1, 17, f64::NAN, 0.0), Err(Refusal::of(7)));
        assert_eq!(ask(17, 1, 17, f64::NAN, 0.0), Err(Refusal::of(8)));
        assert_eq!(ask(3, 1, 17, f64::NAN, 0.0), Err(Refusal::of(25)));
        assert_eq!(ask(4, 3, 17, f64::NAN, 0.0), Err(Refusal::of(10)));
        assert_eq!(ask(4, 4, 17, f64::NAN, 0.0), Err(Refusal::of(19)));
        assert_eq!(ask(4, 4, 16, f64::NAN, 0.0), Err(Refusal::of(6)));
        assert_eq!(ask(4, 4, 16, 0.0, 0.0), Err(Refusal::of(2)));
        assert_eq!(ask(4, 4, 16, 0.0, 1.0), Ok(()));
    }

    #[test]
    fn refused_values_stay() {
        let mut state = [0.0, 0.0];
        let mut directions = [1.0, 0.0];
        let system = linear(2, &[0.0, 0.0, 1e308, 0.0]);
        let answer = step(&system, 0.0, 1.0, &mut state, &mut directions, 1);
        assert_eq!(answer, Err(Refusal::at(17, 1)));
        assert_eq!(directions, [1.0, f64::INFINITY]);
    }
}
