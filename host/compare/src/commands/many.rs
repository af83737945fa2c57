//! Random and adversarial inputs of one kind, against the model and the source.

use super::{source, Differences, Inputs};
use crate::cases::{Build, Called, Orth, Rates, Run, Step, Validate};
use crate::circuit::{Kind, Systems, KINDS, RING};
use crate::generate::{self, counts};
use crate::random::Random;
use crate::tally::{Sizes, Tally, ENOUGH};
use crate::values::{Answer, Value};
use input::Settings;

/// What an answer is counted as, beside its refusal's number.
type Label<C> = fn(&C, &Answer) -> String;

pub fn step(inputs: Inputs) -> bool {
    let mut expected = vec![];
    if inputs.systems.kind().is_none() {
        expected.extend([2, 6, 7, 8, 9, 10, 19, 25].map(|number| (number, "")));
    }
    for kind in inputs.systems.kinds() {
        expected.extend([0, 16, 17].map(|number| (number, kind.label)));
    }
    compare::<Step>("step", inputs, generate::step::step, step_label, &expected)
}

pub fn orthonormalise(inputs: Inputs) -> bool {
    let mut expected = [0, 7, 13, 14].map(|number| (number, "")).to_vec();
    expected.extend([(0, BY_START), (14, BY_START)]);
    let generate = |index, random: &mut Random| match index % 4 {
        0 => generate::orth::of_zeros(random),
        _ => generate::orth::orth(random),
    };
    compare::<Orth>("orthonormalise", inputs, generate, orth_label, &expected)
}

pub fn rates(inputs: Inputs) -> bool {
    let mut expected = [0, 20, 21, 22].map(|number| (number, "")).to_vec();
    expected.push((0, NONE_POSITIVE));
    let generate = |_, random: &mut Random| generate::rates::rates(random);
    compare::<Rates>("rates", inputs, generate, rates_label, &expected)
}

pub fn settings(inputs: Inputs) -> bool {
    let mut expected = [0, 1, 2, 3, 4, 29].map(|number| (number, "")).to_vec();
    expected.extend(by_5(&counts::OVER[1..]));
    let generate = |index, random: &mut Random| Build(counts::settings(index, random));
    let label = |build: &Build, answer: &Answer| label_of_5(&build.0, answer).to_string();
    compare::<Build>("settings", inputs, generate, label, &expected)
}

pub fn validate(inputs: Inputs) -> bool {
    let mut expected = vec![(0, "")];
    expected.extend(tests_of_input());
    let generate = |index, random: &mut Random| Validate(counts::run(index, random));
    let label = |case: &Validate, answer: &Answer| label_of_5(&case.0.settings, answer).to_string();
    compare::<Validate>("validate", inputs, generate, label, &expected)
}

pub fn runs(inputs: Inputs) -> bool {
    if let Some(kind) = inputs.systems.kind() {
        return runs_of(kind, inputs);
    }
    let mut expected: Vec<(u64, &str)> = tests_of_input().collect();
    expected.extend(KINDS.iter().map(|kind| (0, kind.label)));
    expected.extend([
        (0, FAINT),
        (0, INFINITE_RATE),
        (0, INFINITE_TIME),
        (0, OWN_STEPS),
        (13, ""),
        (14, AT_DRAW),
        (14, IN_WARM_UP),
        (14, BEFORE_ROWS),
        (14, AFTER_ROWS),
        (15, ""),
    ]);
    for number in [16, 17, 18] {
        expected.extend([IN_WARM_UP, BEFORE_ROWS, AFTER_ROWS].map(|label| (number, label)));
    }
    let agree = compare::<Run>("runs", inputs, counts::run, label_with_5, &expected);
    let broken = generate::runs::broken_before(inputs.count);
    let pairs = generate::broken_runs::PAIRS;
    let met = broken.min(pairs);
    println!("  {broken} of them with failing tests: {met} of {pairs} pairs of tests met");
    agree && (met == pairs || inputs.count < ENOUGH)
}

/// Runs of one kind. What must be met is what every kind can reach, and that rings become faint.
fn runs_of(kind: &'static Kind, inputs: Inputs) -> bool {
    let mut expected = vec![(0, kind.label), (15, "")];
    if inputs.systems == Systems::Of(RING) {
        expected.push((0, FAINT));
    }
    for number in [14, 16, 17] {
        expected.extend([IN_WARM_UP, BEFORE_ROWS].map(|label| (number, label)));
    }
    compare::<Run>("runs", inputs, generate::runs::run, run_label, &expected)
}

/// Runs from time 0, by `estimate_largest` and by `estimate_spectrum`. From there the measured time
/// is finite where the time is, and a first window that is measured at once does not refuse by 18.
pub fn from_zero(inputs: Inputs) -> bool {
    let mut expected: Vec<(u64, &str)> = [2, 3, 4, 7, 8, 25, 9, 10, 11, 13, 15]
        .map(|number| (number, ""))
        .to_vec();
    expected.extend(by_5(&counts::OVER[1..4]));
    expected.extend(KINDS.iter().map(|kind| (0, kind.label)));
    expected.extend([(0, FAINT), (0, INFINITE_RATE)]);
    expected.extend([14, 16, 17, 18].map(|number| (number, AFTER_ROWS)));
    expected.extend([14, 16, 17].map(|number| (number, BEFORE_ROWS)));
    let largest = |index, random: &mut Random| counts::run(index, random).largest();
    let one = compare::<Run>("estimate_largest", inputs, largest, label_with_5, &expected);
    expected.extend([(0, OWN_STEPS), (1, ""), (12, ""), (29, "")]);
    expected.extend([(14, AT_DRAW), (18, BEFORE_ROWS)]);
    expected.extend(by_5(&counts::OVER[4..]));
    expected.extend([14, 16, 17, 18].map(|number| (number, IN_WARM_UP)));
    let all = |index, random: &mut Random| counts::run(index, random).at_zero();
    compare::<Run>("estimate_spectrum", inputs, all, label_with_5, &expected) && one
}

/// The refusals that do not look at a run's outputs, 5 with every combination of counts over.
fn tests_of_input() -> impl Iterator<Item = (u64, &'static str)> {
    let others = (1..=12).filter(|number| *number != 5).chain([25, 29]);
    others
        .map(|number| (number, ""))
        .chain(by_5(&counts::OVER[1..]))
}

fn by_5<'a>(labels: &'a [&'static str]) -> impl Iterator<Item = (u64, &'static str)> + 'a {
    labels.iter().map(|label| (5, *label))
}

const BY_START: &str = ", by the zero that sums begin at";
const NONE_POSITIVE: &str = ", no rate above 0";
const FAINT: &str = ", a faint direction";
const INFINITE_RATE: &str = ", an infinite rate";
const INFINITE_TIME: &str = ", infinite measured time";
const OWN_STEPS: &str = ", warm-up windows with other steps";
const AT_DRAW: &str = " at the draw";
const IN_WARM_UP: &str = " in a warm-up window";
const BEFORE_ROWS: &str = " in the first measured window";
const AFTER_ROWS: &str = " after a row";

pub fn unlabelled<C>(_: &C, _: &Answer) -> String {
    String::new()
}

/// Whether the start of the sums decides an entry.
fn orth_label(orth: &Orth, _: &Answer) -> String {
    let turned = orth.turned();
    if turned.is_empty() { "" } else { BY_START }.to_string()
}

fn rates_label(rates: &Rates, answer: &Answer) -> String {
    let none = answer.number() == 0 && !rates.0.iter().any(|rate| *rate > 0.0);
    if none { NONE_POSITIVE } else { "" }.to_string()
}

/// Which counts are over, where 5 refuses.
fn label_of_5(settings: &Settings, answer: &Answer) -> &'static str {
    match answer.number() {
        5 => counts::label(settings),
        _ => "",
    }
}

/// Which counts are over, where 5 refuses, and else what `run_label` says.
fn label_with_5(run: &Run, answer: &Answer) -> String {
    label_of_5(&run.settings, answer).to_string() + &run_label(run, answer)
}

/// Which system was moved, where one was.
pub fn step_label(step: &Step, answer: &Answer) -> String {
    let label = match answer.number() {
        0 | 16 | 17 => step.circuit.label(),
        _ => "",
    };
    label.to_string()
}

/// Where a run was refused, or what is special in its answer.
pub fn run_label(run: &Run, answer: &Answer) -> String {
    let infinite = |name: &str| match answer.get(name) {
        Some(Value::Float(x)) => x.is_infinite(),
        Some(Value::Floats(values)) => values.iter().any(|x| x.is_infinite()),
        _ => false,
    };
    let settings = &run.settings;
    let transient_steps = settings.transient_steps();
    let warm_up = transient_steps.saturating_mul(settings.transient_windows);
    let has_others = warm_up > 0 && transient_steps != settings.steps_per_window;
    let collapsed = answer.number() == 14;
    let label = match answer.number() {
        0 if infinite("mtime") => INFINITE_TIME,
        0 if infinite("rows") || infinite("exps") => INFINITE_RATE,
        0 if answer.is_faint() => FAINT,
        0 if has_others => OWN_STEPS,
        0 => run.circuit.label(),
        14 if answer.count("made") == 0 => AT_DRAW,
        14 | 16 | 17 | 18 if answer.count("finished") > 0 => AFTER_ROWS,
        // A collapse counts the steps of its window, the others do not count their step.
        14 | 16 | 17 | 18 if answer.count("made") + u64::from(!collapsed) <= warm_up => IN_WARM_UP,
        14 | 16 | 17 | 18 => BEFORE_ROWS,
        _ => "",
    };
    label.to_string()
}

/// Compares `count` inputs and prints the counts; `expected` are the labels that must be met.
fn compare<C: Called>(
    name: &str,
    inputs: Inputs,
    generate: impl Fn(u64, &mut Random) -> C,
    label: Label<C>,
    expected: &[(u64, &str)],
) -> bool {
    let reference = source();
    let count = inputs.count;
    let mut random = inputs.random();
    let (mut tally, mut sizes) = (Tally::default(), Sizes::default());
    let (mut differences, mut by_source) = (Differences::default(), 0);
    for index in 0..count {
        let case = generate(index, &mut random);
        let model = case.model();
        let source = reference.and_then(|source| case.source(source));
        tally.count(model.number(), &label(&case, &model));
        if let Some(size) = case.size().filter(|_| model.number() == 0) {
            sizes.count(size);
        }
        by_source += u64::from(source.is_some());
        if let Some(difference) = case.difference(&model, source.as_ref()) {
            let line = || case.line(&format!("{name}{index}"), &model, "by the model");
            differences.add(|| format!("{difference}\n  {}", line()));
        }
    }
    tally.print();
    println!(
        "{name}: {count} inputs against the model, {by_source} of them against the source, {} differ",
        differences.count
    );
    let sized = inputs.covered_by(&sizes);
    tally.covers(count, expected) && sized && differences.count == 0
}
