//! Root, logarithm and generator on special and random patterns.

use super::{source, Differences, Inputs};
use crate::cases::turn_of_library;
use crate::generate::patterns::{random_float, special_floats, special_states};
use crate::random::Random;
use crate::values::{same, FILLING};
use oracle::logarithm::document_logarithm;
use oracle::Source;

/// The outputs that are published for splitmix64.c from this seed.
const PUBLISHED_SEED: u64 = 1234567;
const PUBLISHED: [u64; 5] = [
    6457827717110365317,
    3203168211198807973,
    9817491932198370423,
    4593380528125082431,
    16408922859458223821,
];

/// Compares each leaf on at least `inputs.count` patterns.
pub fn leaves(inputs: Inputs) -> bool {
    let source = source();
    let mut random = inputs.random();
    let differ = [
        roots(inputs.count, &mut random),
        logarithms(inputs.count, &mut random),
        generator(inputs.count, &mut random, source),
        published(),
    ];
    differ.iter().sum::<u64>() == 0
}

/// The special floats, then random ones, `count` in all or as many as are special.
fn floats(count: u64, random: &mut Random) -> impl Iterator<Item = f64> + '_ {
    let special = special_floats();
    let more = count.saturating_sub(special.len() as u64);
    let random = (0..more).map(|_| random_float(random));
    special.into_iter().chain(random)
}

fn roots(count: u64, random: &mut Random) -> u64 {
    let mut differences = Differences::default();
    let mut patterns = 0_u64;
    for x in floats(count, random) {
        patterns += 1;
        let (root, hardware, model) = (lyapunov_sys::sqrt(x), x.sqrt(), model::square_root(x));
        if !same(root, hardware) || !same(root, model) {
            differences.add(|| {
                let bits = [x, root, hardware, model].map(f64::to_bits);
                format!("sqrt: x, library, hardware, model: {bits:016x?}")
            });
        }
    }
    println!(
        "sqrt: {patterns} patterns against the hardware and whole numbers, {} differ",
        differences.count
    );
    differences.count
}

fn logarithms(count: u64, random: &mut Random) -> u64 {
    let mut differences = Differences::default();
    let (mut patterns, mut refused) = (0_u64, 0_u64);
    for x in floats(count, random) {
        patterns += 1;
        let mut log = FILLING;
        let number = lyapunov_sys::ln(x, &mut log);
        let agrees = match model::logarithm(x) {
            Some(expected) => {
                number == 0 && same(log, expected) && same(log, document_logarithm(x))
            }
            None => {
                refused += 1;
                number == 24 && same(log, FILLING)
            }
        };
        if !agrees {
            differences.add(|| {
                let bits = [x, log].map(f64::to_bits);
                format!("ln: number {number}, x, library: {bits:016x?}")
            });
        }
    }
    println!(
        "ln: {patterns} patterns against the listed steps in two forms, {refused} of them refused \
         by 24, {} differ",
        differences.count
    );
    differences.count
}

fn generator(count: u64, random: &mut Random, source: Option<&dyn Source>) -> u64 {
    let mut differences = Differences::default();
    let special = special_states();
    let more = count.saturating_sub(special.len() as u64);
    let states = special.len() as u64 + more;
    for state in special.into_iter().chain((0..more).map(|_| random.bits())) {
        let (next, output, draw) = turn_of_library(state);
        let (model_next, model_output) = model::splitmix64(state);
        let unit = model::symmetric_unit(model_output);
        let by_model = (next, output) == (model_next, model_output) && same(draw, unit);
        let by_source = source.is_none_or(|source| {
            let turn = source.splitmix64(state);
            (next, output) == (turn.state, turn.output) && same(draw, turn.symmetric_unit)
        });
        if !by_model || !by_source {
            differences.add(|| format!("splitmix64: state {state:016x}"));
        }
    }
    let by_source = if source.is_some() { states } else { 0 };
    println!(
        "splitmix64: {states} states against the model, {by_source} of them against the source, {} \
         differ",
        differences.count
    );
    differences.count
}

fn published() -> u64 {
    let mut differences = Differences::default();
    let mut state = PUBLISHED_SEED;
    for expected in PUBLISHED {
        let (next, output, _) = turn_of_library(state);
        state = next;
        if output != expected {
            differences.add(|| format!("splitmix64: published {expected}, library {output}"));
        }
    }
    let (outputs, differ) = (PUBLISHED.len(), differences.count);
    println!("splitmix64: {outputs} published outputs, {differ} differ");
    differ
}
