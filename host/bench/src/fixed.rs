//! A Lorenz run in plain Rust with the dimension and the number of directions fixed at 3: about as
//! fast as the operations in their order can be.

use crate::problem::lorenz;
use crate::race::{same_bits, Race};
use crate::runs::{Counts, Run};
use oracle::logarithm::document_logarithm;
use std::hint::black_box;

type Vector = [f64; 3];

const SIGMA: f64 = 10.0;
const RHO: f64 = 28.0;
const BETA: f64 = 8.0 / 3.0;
const STEP: f64 = 0.01;

pub fn races() -> Result<Vec<Race>, String> {
    [(10, 6_000), (1, 20_000)]
        .into_iter()
        .map(|(steps, windows)| race(Counts { steps, windows }))
        .collect()
}

fn race(counts: Counts) -> Result<Race, String> {
    let name = format!("run, Lorenz K=3, {}", counts.pace());
    let mut problem = lorenz();
    problem.step_size = STEP;
    let mut run = Run::of(problem, counts);
    run.make();
    let mut rows = vec![0.0; run.rows.len()];
    fixed_run(counts, &mut rows);
    same_bits(&name, &run.rows, &rows)?;
    Ok(Race {
        name,
        target: None,
        calls: (counts.steps * counts.windows) as usize,
        library: Box::new(move || run.make()),
        other: Some(Box::new(move || {
            fixed_run(black_box(counts), &mut rows);
            black_box(&rows);
        })),
    })
}

fn fixed_run(counts: Counts, rows: &mut [f64]) {
    let mut state = [1.0; 3];
    let mut basis = drawn();
    orthonormalise(&mut basis);
    let duration = STEP * counts.steps as f64;
    let mut sums = [0.0; 3];
    let mut time = 0.0;
    for (window, row) in rows.chunks_exact_mut(7).enumerate() {
        for _ in 0..counts.steps {
            step(&mut state, &mut basis);
            time += STEP;
        }
        let logarithms = orthonormalise(&mut basis);
        let elapsed = duration * (window + 1) as f64;
        row[0] = time;
        for i in 0..3 {
            sums[i] += logarithms[i];
            row[1 + i] = logarithms[i] / duration;
            row[4 + i] = sums[i] / elapsed;
        }
    }
}

fn drawn() -> [Vector; 3] {
    let mut seed = 1;
    let mut draw = |_| {
        seed = lyapunov_sys::splitmix64_next(seed);
        lyapunov_sys::splitmix64_symmetric_unit(lyapunov_sys::splitmix64_value(seed))
    };
    [0; 3].map(|_| [0; 3].map(&mut draw))
}

fn field([x, y, z]: Vector) -> Vector {
    [SIGMA * (y - x), x * (RHO - z) - y, x * y - BETA * z]
}

fn tangent([x, y, z]: Vector, [u, v, w]: Vector) -> Vector {
    [
        SIGMA * (v - u),
        (RHO - z) * u - v - x * w,
        y * u + x * v - BETA * w,
    ]
}

fn along(base: Vector, scale: f64, derivative: Vector) -> Vector {
    [0, 1, 2].map(|i| base[i] + scale * derivative[i])
}

/// Moves a vector whose derivative at a stage and a point is `derivative`; answers the points.
fn moved(base: &mut Vector, derivative: impl Fn(usize, Vector) -> Vector) -> [Vector; 4] {
    let p0 = *base;
    let k0 = derivative(0, p0);
    let p1 = along(p0, 0.5 * STEP, k0);
    let k1 = derivative(1, p1);
    let p2 = along(p0, 0.5 * STEP, k1);
    let k2 = derivative(2, p2);
    let p3 = along(p0, STEP, k2);
    let k3 = derivative(3, p3);
    for i in 0..3 {
        base[i] += (STEP / 6.0) * (k0[i] + 2.0 * k1[i] + 2.0 * k2[i] + k3[i]);
    }
    [p0, p1, p2, p3]
}

fn step(state: &mut Vector, basis: &mut [Vector; 3]) {
    let points = moved(state, |_, p| field(p));
    let mut finite = state.iter().all(|x| x.is_finite());
    for direction in basis {
        moved(direction, |stage, t| tangent(points[stage], t));
        finite &= direction.iter().all(|x| x.is_finite());
    }
    assert!(finite, "a Lorenz run stays finite");
}

fn dot(left: Vector, right: Vector) -> f64 {
    -0.0 + left[0] * right[0] + left[1] * right[1] + left[2] * right[2]
}

fn orthonormalise(basis: &mut [Vector; 3]) -> Vector {
    let mut logarithms = [0.0; 3];
    for v in 0..3 {
        for _ in 0..2 {
            for earlier in 0..v {
                let projection = dot(basis[earlier], basis[v]);
                basis[v] = [0, 1, 2].map(|i| basis[v][i] - projection * basis[earlier][i]);
            }
        }
        let length = dot(basis[v], basis[v]).sqrt();
        logarithms[v] = document_logarithm(length);
        basis[v] = basis[v].map(|x| x / length);
    }
    logarithms
}
