//! No input makes a call panic. A step and an orthonormalisation answer and leave what the model
//! does, to the bit, and what else is answered has the shape that it promises.

use field_lyapunov::{
    estimate_spectrum_at, kaplan_yorke_dimension, kolmogorov_sinai_entropy, ln,
    modified_gram_schmidt, sqrt, BenettinConfig, Dispatcher, LyapunovError, RefusedRun, Rk4,
    SpectrumEstimate, SplitMix64, Store, System,
};
use input::Refusal;
use lyapunov_sys::Arguments;

const FLOATS: [f64; 11] = [
    0.0,
    -0.0,
    1.0,
    -3.5,
    1e-320,
    1e160,
    -1e308,
    f64::MAX,
    f64::INFINITY,
    f64::NEG_INFINITY,
    f64::NAN,
];

const SIZES: [usize; 9] = [0, 1, 2, 3, 4, 5, 16, 17, usize::MAX];

/// Sizes with which every run is short.
const SHORT: [usize; 4] = [1, 2, 3, 5];

/// A source of choices.
struct Chooser(SplitMix64);

impl Chooser {
    fn size(&mut self) -> usize {
        let at = self.0.next_u64() as usize % SIZES.len();
        SIZES[at]
    }

    /// Mostly the size that is given.
    fn or_size(&mut self, given: usize) -> usize {
        let other = self.size();
        match self.0.next_u64() % 4 {
            0 => other,
            _ => given,
        }
    }

    fn short(&mut self) -> usize {
        let at = self.0.next_u64() as usize % SHORT.len();
        SHORT[at]
    }

    /// Mostly a number of everyday size.
    fn float(&mut self) -> f64 {
        let at = self.0.next_u64() as usize % 44;
        *FLOATS.get(at).unwrap_or(&(3.0 * self.0.symmetric_unit()))
    }

    fn floats(&mut self, length: usize) -> Vec<f64> {
        (0..length.min(300)).map(|_| self.float()).collect()
    }

    fn system(&mut self) -> System {
        match self.0.next_u64() % 8 {
            0 => System::Lorenz {
                sigma: self.float(),
                rho: self.float(),
                beta: self.float(),
            },
            1 => System::Rossler {
                a: self.float(),
                b: self.float(),
                c: self.float(),
            },
            2 => System::VanDerPol { mu: self.float() },
            3 | 4 => self.ring(),
            _ => self.linear(),
        }
    }

    fn ring(&mut self) -> System {
        System::Lorenz96 {
            cells: self.size(),
            forcing: self.float(),
        }
    }

    fn linear(&mut self) -> System {
        let dimension = self.size();
        let matrix = match self.0.next_u64() % 8 {
            0 => self.floats(dimension),
            _ => self.floats(dimension.saturating_mul(dimension)),
        };
        System::Linear { dimension, matrix }
    }

    /// Mostly of the length that is asked for.
    fn state(&mut self, dimension: usize) -> Vec<f64> {
        let other = self.size();
        match self.0.next_u64() % 8 {
            0 => self.floats(other),
            _ => self.floats(dimension),
        }
    }
}

fn chooser(seed: u64) -> Chooser {
    Chooser(SplitMix64::new(seed))
}

#[test]
fn runs() {
    let mut chooser = chooser(1);
    let (mut answered, mut refused) = (0, 0);
    for _ in 0..40_000 {
        let stepper = Rk4::new(chooser.system());
        let state = chooser.state(stepper.dimension());
        let (k, steps, windows) = (chooser.size(), chooser.size(), chooser.size());
        let Ok(config) = BenettinConfig::new(k, chooser.float(), steps, windows) else {
            continue;
        };
        let warm_up_steps = chooser.or_size(steps);
        let config = config
            .with_transient_windows(chooser.size())
            .with_steps_per_transient_window(warm_up_steps);
        match estimate_spectrum_at(&stepper, chooser.float(), &state, &config) {
            Ok(estimate) => {
                answered += 1;
                assert_eq!(estimate.exponents().len(), k);
                assert_eq!(estimate.faint_counts().len(), k);
                assert_eq!(estimate.finite_time_estimates().len(), windows);
                assert_eq!(estimate.final_state().len(), state.len());
                let warm_up = config.steps_per_transient_window() * config.transient_windows();
                let all = (steps * windows + warm_up) as u64;
                assert_eq!(estimate.steps(), all);
            }
            Err(run) => {
                refused += 1;
                assert!((1..=29).contains(&run.error().number()));
                assert!(run.finite_time_estimates().len() <= windows);
                assert!(!run.to_string().is_empty());
            }
        }
    }
    assert!(answered > 100 && refused > 100, "{answered} {refused}");
}

/// Equal bits, or two NaNs.
fn assert_same(actual: &[f64], expected: &[f64]) {
    let same = |(a, b): (&f64, &f64)| a.to_bits() == b.to_bits() || (a.is_nan() && b.is_nan());
    let all_same = actual.len() == expected.len() && actual.iter().zip(expected).all(same);
    assert!(all_same, "{actual:?}, but the model has {expected:?}");
}

/// The number and the place of an error, as the model has them.
fn refusal(error: LyapunovError) -> Refusal {
    Refusal::at(error.number(), error.place() as u64)
}

/// What is brought to a going on need not be what was kept: the answer is then any, with as many
/// windows as were asked for or fewer.
#[test]
fn kept_states() {
    let (mut chooser, mut store) = (chooser(5), Store::new());
    let mut gone_on = 0;
    for _ in 0..20_000 {
        let number = chooser.0.next_u64() as u8 % 12;
        let stepper = Rk4::new(chooser.system());
        let state = chooser.state(stepper.dimension());
        let (steps, windows) = (chooser.short(), chooser.short());
        let Ok(config) = BenettinConfig::new(chooser.short(), chooser.float(), steps, windows)
        else {
            continue;
        };
        let before = store.windows(number);
        let kept = store.keep(number, &stepper, chooser.float(), &state, &config);
        let expected = if kept.is_ok() { Some(windows) } else { before };
        assert_eq!(store.windows(number), expected);
        assert!(store.numbers().count() <= 8);
        let (other, later) = (chooser.0.next_u64() as u8 % 12, chooser.short());
        if let Ok(answer) = store.go_on(other, &stepper, 0.0, &state, &config, later) {
            gone_on += 1;
            assert!(answer.finite_time_estimates().len() <= later);
        }
        if chooser.0.next_u64() % 4 == 0 {
            let is_kept = store.windows(other).is_some();
            assert_eq!(store.forget(other).is_ok(), is_kept);
        }
    }
    assert!(gone_on > 100, "{gone_on}");
}

/// Any runs side by side: each answers as alone, or is refused on hand-in as alone.
#[test]
fn side_by_side() {
    let (mut chooser, mut dispatcher) = (chooser(6), Dispatcher::new());
    let mut expected: Vec<Option<Answer>> = vec![None; 8];
    let (mut answered, mut refused, mut full) = (0, 0, 0);
    for _ in 0..20_000 {
        let stepper = Rk4::new(chooser.system());
        let state = chooser.state(stepper.dimension());
        let (k, h, time) = (chooser.short(), chooser.float(), chooser.float());
        let Ok(config) = BenettinConfig::new(k, h, chooser.short(), chooser.short()) else {
            continue;
        };
        let config = config
            .with_transient_windows(chooser.short())
            .with_steps_per_transient_window(chooser.short());
        let alone = estimate_spectrum_at(&stepper, time, &state, &config);
        match dispatcher.hand_in(&stepper, time, &state, &config) {
            Ok(name) => expected[name] = Some(alone),
            Err(LyapunovError::DispatcherFull) => full += 1,
            Err(error) => assert_eq!(alone.unwrap_err(), RefusedRun::from(error)),
        }
        // So seldom that some ninth run is handed in.
        let turns = if chooser.0.next_u64() % 64 == 0 {
            40
        } else {
            0
        };
        for _ in 0..turns {
            let Some(turn) = dispatcher.turn() else {
                continue;
            };
            let name = turn.name();
            if let Some(answer) = turn.into_answer() {
                answered += u64::from(answer.is_ok());
                refused += u64::from(answer.is_err());
                assert_alike(&answer, &expected[name].take().unwrap());
            }
        }
    }
    let met = [answered, refused, full];
    assert!(met.iter().all(|count| *count > 100), "{met:?}");
}

type Answer = Result<SpectrumEstimate, RefusedRun>;

/// Debug text tells the bits of every float but the payloads of NaNs.
fn assert_alike(left: &Answer, right: &Answer) {
    assert_eq!(format!("{left:?}"), format!("{right:?}"));
}

#[test]
fn steps_and_orthonormalisations() {
    let mut chooser = chooser(2);
    let mut moved = 0;
    for _ in 0..20_000 {
        let stepper = Rk4::new(chooser.system());
        let mut state = chooser.state(stepper.dimension());
        let count = chooser.size();
        let length = stepper.dimension().saturating_mul(count);
        let mut tangents = chooser.state(length);
        let (time, h) = (chooser.float(), chooser.float());
        let (mut x, mut t) = (state.clone(), tangents.clone());
        let answer = stepper.step(time, &mut state, &mut tangents, count, h);
        let expected = model::step(stepper.system(), time, h, &mut x, &mut t, count);
        assert_eq!(answer.map_err(refusal), expected);
        assert_same(&state, &x);
        assert_same(&tangents, &t);
        moved += u64::from(answer.is_ok());

        let dimension = chooser.size();
        let directions = tangents.len().checked_div(dimension).unwrap_or(0);
        let mut numbers = vec![0.0; 2 * directions];
        let answer = modified_gram_schmidt(&mut tangents, dimension);
        let expected = model::orthonormalise(&mut t, dimension, &mut numbers);
        assert_same(&tangents, &t);
        match answer {
            Ok(logarithms) => {
                assert_eq!(expected, Ok(()));
                assert_same(&logarithms, &numbers[..directions]);
            }
            Err(error) => assert_eq!(expected, Err(refusal(error))),
        }
    }
    assert!((100..19_900).contains(&moved), "{moved}");
}

/// What a ring does not use may be anything: two parameters, and a matrix of any length.
#[test]
fn steps_of_rings_that_are_lent_a_matrix() {
    let mut chooser = chooser(4);
    let mut moved = 0;
    for _ in 0..5_000 {
        let ring = chooser.ring();
        let length = chooser.size();
        let matrix = chooser.floats(length.saturating_mul(length));
        let unused = Arguments {
            kind: 3,
            parameters: [chooser.float(), chooser.float(), chooser.float()],
            dimension: length,
            matrix: &matrix,
        };
        let mut state = chooser.state(ring.dimension());
        let mut tangents = chooser.floats(ring.dimension().saturating_mul(2));
        let (mut x, mut t) = (state.clone(), tangents.clone());
        let arguments = Arguments::over(&ring, unused);
        let answer = lyapunov_sys::step(arguments, 0.0, &mut state, &mut tangents, 2, 0.125);
        let expected = model::step(&ring, 0.0, 0.125, &mut x, &mut t, 2);
        assert_eq!(answer, expected.err().unwrap_or(Refusal::NONE));
        assert_same(&state, &x);
        assert_same(&tangents, &t);
        moved += u64::from(answer == Refusal::NONE);
    }
    assert!(moved > 100, "{moved}");
}

#[test]
fn rates_and_arithmetic() {
    let mut chooser = chooser(3);
    for _ in 0..20_000 {
        let length = chooser.0.next_u64() as usize % 300;
        let exponents = chooser.floats(length);
        if let Ok(dimension) = kaplan_yorke_dimension(&exponents) {
            assert!((0.0..=length as f64).contains(&dimension));
            assert!(kolmogorov_sinai_entropy(&exponents).unwrap() >= 0.0);
        }
        let x = f64::from_bits(chooser.0.next_u64());
        assert_eq!(sqrt(x).is_nan(), x.is_nan() || x < 0.0);
        assert_eq!(ln(x).is_ok(), x.is_normal() && x > 0.0);
    }
}
