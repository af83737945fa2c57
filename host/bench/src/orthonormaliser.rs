//! The orthonormaliser on its own: each call on a fresh copy of the same directions, in memory that
//! is at hand. The source's vector of logarithms is part of its call.

use crate::problem::linear;
use crate::race::{same_bits, Race, Reference, Target};
use oracle::{End, Source};
use std::hint::black_box;

pub fn races(source: Reference) -> Result<Vec<Race>, String> {
    let sizes = [(3, 20_000), (16, 500)];
    let race = |(size, calls)| race(source, size, calls);
    sizes.into_iter().map(race).collect()
}

fn race(source: Reference, size: usize, calls: usize) -> Result<Race, String> {
    let name = format!("orthonormalise, d={size} K={size}");
    let mut directions = linear(size, size).directions();
    // The pattern of directions repeats; the diagonal keeps them apart.
    for at in 0..size {
        directions[at * size + at] += 2.0;
    }
    if let Some(source) = source {
        let mine = by_library(&directions, size);
        same_bits(&name, &mine, &by_source(source, &directions, size)?)?;
    }
    let copy = directions.clone();
    let other = source.map(|source| -> Box<dyn FnMut()> {
        let mut work = copy.clone();
        Box::new(move || {
            for _ in 0..calls {
                work.copy_from_slice(black_box(&copy));
                let _ = black_box(source.modified_gram_schmidt(&mut work, size));
            }
        })
    });
    let (mut work, mut numbers) = (directions.clone(), vec![0.0; 2 * size]);
    Ok(Race {
        name,
        target: Some(Target::Ratio(1.0)),
        calls,
        library: Box::new(move || {
            for _ in 0..calls {
                work.copy_from_slice(black_box(&directions));
                let answer = lyapunov_sys::modified_gram_schmidt(&mut work, size, &mut numbers);
                black_box(answer);
            }
        }),
        other,
    })
}

/// The directions and their logarithms.
fn by_library(directions: &[f64], size: usize) -> Vec<f64> {
    let mut directions = directions.to_vec();
    let mut numbers = vec![0.0; 2 * size];
    let refusal = lyapunov_sys::modified_gram_schmidt(&mut directions, size, &mut numbers);
    assert_eq!(refusal.number, 0, "the directions are independent");
    directions.extend_from_slice(&numbers[..size]);
    directions
}

fn by_source(source: &dyn Source, directions: &[f64], size: usize) -> Result<Vec<f64>, String> {
    let mut directions = directions.to_vec();
    match source.modified_gram_schmidt(&mut directions, size) {
        End::Done(logarithms) => {
            directions.extend(logarithms);
            Ok(directions)
        }
        end => Err(format!("the source ends with {end:?}")),
    }
}
