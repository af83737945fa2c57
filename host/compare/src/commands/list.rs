//! The fixed list of answers, which is replayed where the source is not at hand.

use super::many::{run_label, step_label, unlabelled};
use crate::cases::{
    dispatcher, Build, Call, Case, Draw, Listed, Log, Orth, Program, Rates, Reference, Root, Run,
    Step, Turned, Validate,
};
use crate::circuit::{Systems, RING};
use crate::generate::{self, counts, edges, kept, patterns, seeds, turns, warm_up};
use crate::random::Random;
use crate::tally::Tally;
use crate::values::Answer;
use input::{Settings, DEFAULT_SEED};
use oracle::{Source, NOT_AVAILABLE};

const HEADER: &str = "\
# Inputs of document 01 and their answers: its marked examples and edges, every refusal of the
# base, and random inputs.
# Written in host/ by: cargo run --release -p compare -- write-list FILE
# The answers are those of the Rust source, MonumentalSystems/commutator-rs at bff4212c1d, built
# with two substitutions (every float sum folds from -0.0, as document 02's request d says, and the
# logarithm is document 01's), and of host/model, an independent reading of the documents. by=oracle:
# both have the behaviour and agree. by=model: the source has none (5, 8, 9, 13, 21, 23, 24, the bound
# of 16 in 19). Faint counts, and the squared lengths of orth, are the model's.
# A case is one line: KIND id=ID name=value ... -> name=value ... # remark. Left of the arrow
# stands what is handed in, right of it what comes back. A float is the 16 hexadecimal digits of
# its bits, and so are seeds, states and outputs of the generator; counts are decimal. Lists are
# parted by commas, - is the empty list or no value, and . is an entry of an output that keeps
# what it held. An answered NaN stands for every NaN. Each case stands for itself, but those of the
# kinds empty, keep, go-on and forget: these are calls of one store in the order of their lines.
# Those of the kinds dispatcher, hand-in, next and turn are calls of one dispatcher in their order.
";

/// What stands before the cases of request a.
const RINGS: &str = "\
# Rings of cells, lorenz96:N with N cells and the forcing as its parameter: document 02's request a.
# by=model: the source has no 25.
";

/// What stands before the cases of request b.
const COUNTS: &str = "\
# Counts at their limit and over it: document 02's request b. The place of 5 is the first count that
# is over, in the order 0 steps, 1 windows, 2 warm-up. A validate case is the tests of a run that do
# not look at its outputs.
";

/// What stands before the cases of request c.
const KEPT: &str = "\
# States kept under a number: document 02's request c. There is one store. empty makes one that keeps
# nothing. keep is a run, with the fields of one, whose end is kept under number=0 to 255 where it is
# not refused. go-on goes on from there for the windows that it brings: it answers what one run of
# all windows does, and its rows are the later ones. forget forgets, and answers num and place alone.
# by=oracle: the source made all windows in one run. by=model: it has no 26 and no 27 either.
";

/// What stands before the cases of request d.
const SUMS: &str = "\
# Sums from -0.0: document 02's request d. Directions with a cleared zero that has another sign than by
# sums from +0.0, which the remark tells, and spectra without a rate above 0.
";

/// What stands before the cases of request f.
const DISPATCHED: &str = "\
# Runs side by side: document 02's request f. There is one dispatcher. dispatcher makes one without
# runs. hand-in is a run, with the fields of one but the matrix and the outputs; it answers the name, 8
# where it is refused. next answers whose turn is next, 8 for nobody. turn is one window of that run,
# which is lent mat and the outputs numbered set=0 to 15: fresh=1 makes these anew, fresh=0 lends them
# as the last turn left them. It answers its stage (nobody, unfit, under-way or over), the windows of
# that run that were begun, and all of the three outputs after it; what a run answers beside them is
# told once it is over. by=oracle: the source made that run alone. by=model: it has no turns.
";

/// What stands before the cases of request g.
const WARM_UP_STEPS: &str = "\
# Steps of warm-up windows: document 02's request g. warmupsteps= gives the steps of each warm-up window;
# left out they are those of a measured one. by=oracle: they are equal; the source has no others. by=model:
# it has no 29 and no place 3 of 5 either. The calls of a store, and those of a dispatcher, begin anew.
";

/// Lines longer than this are not taken from the random inputs.
const LONGEST: usize = 1200;

/// The list as text.
pub fn write_list() -> Result<String, String> {
    let source = oracle::source().ok_or(format!("{NOT_AVAILABLE}: no list was written"))?;
    let mut list = List {
        source,
        random: Random::seeded(1).with(Systems::Base),
        text: HEADER.to_string(),
        cases: 0,
    };
    list.leaves()?;
    list.directions_and_steps()?;
    list.runs()?;
    list.settings_and_rates()?;
    list.rings()?;
    list.counts()?;
    list.kept()?;
    list.sums()?;
    list.dispatched()?;
    list.warm_up_steps()?;
    println!("{} cases, {} bytes", list.cases, list.text.len());
    Ok(list.text)
}

struct List {
    source: &'static dyn Source,
    random: Random,
    text: String,
    cases: u64,
}

impl List {
    /// Adds a case, once the model and the source agree on it.
    fn add<C: Case>(&mut self, case: &C, remark: &str) -> Result<(), String> {
        let (model, source) = (case.model(), case.source(self.source));
        self.add_agreed(&model, source, |id, by| {
            case.line(id, &model, &format!("by={by}, {remark}"))
        })
    }

    /// Adds a line, once the model and the source agree on its answer. It is made of its id and of
    /// whom the answer is by.
    fn add_agreed(
        &mut self,
        model: &Answer,
        source: Option<Answer>,
        line: impl Fn(&str, &str) -> String,
    ) -> Result<(), String> {
        self.cases += 1;
        let id = format!("L{:04}", self.cases);
        let by = if source.is_some() { "oracle" } else { "model" };
        let line = line(&id, by);
        if let Some(difference) = source.and_then(|source| source.difference(model)) {
            return Err(format!("model against source: {difference}: {line}"));
        }
        self.text.push_str(&line);
        self.text.push('\n');
        Ok(())
    }

    /// Adds those of `cases`, each with two failing tests, that `belongs` lets in.
    fn add_failing<C: Case>(&mut self, cases: &[C], belongs: fn(&C) -> bool) -> Result<(), String> {
        for case in cases.iter().filter(|case| belongs(case)) {
            self.add(case, "two failing tests")?;
        }
        Ok(())
    }

    /// Adds random cases until `tries` were looked at, at most `each` of a label.
    fn add_random<C: Case>(
        &mut self,
        each: u64,
        tries: u64,
        generate: impl Fn(u64, &mut Random) -> C,
        label: fn(&C, &Answer) -> String,
    ) -> Result<(), String> {
        let mut tally = Tally::default();
        for index in 0..tries {
            let case = generate(index, &mut self.random);
            let answer = case.model();
            let label = label(&case, &answer);
            let length = case.written().len() + answer.written().len();
            let enough = tally.of(answer.number(), &label) >= each;
            if enough || length > LONGEST || !is_of_document(&case) {
                continue;
            }
            tally.count(answer.number(), &label);
            self.add(&case, &format!("random{label}"))?;
        }
        Ok(())
    }

    fn leaves(&mut self) -> Result<(), String> {
        for x in [4.0, 2.0, f64::from_bits(1)] {
            self.add(&Root(x), "marked")?;
        }
        for x in [1.0, 2.0] {
            self.add(&Log(x), "marked")?;
        }
        for x in special_values() {
            self.add(&Root(x), "special value")?;
            self.add(&Log(x), "special value")?;
        }
        for _ in 0..40 {
            let x = patterns::random_float(&mut self.random).abs();
            self.add(&Root(x), "random")?;
            self.add(&Log(x), "random")?;
        }
        for bits in patterns::AT_BOUND {
            let remark = "the side of the bound of the high word decides";
            self.add(&Log(f64::from_bits(bits)), remark)?;
        }
        for bits in patterns::DECIDING {
            let remark = "the last digit of a constant decides";
            self.add(&Log(f64::from_bits(bits)), remark)?;
        }
        self.draws()
    }

    fn draws(&mut self) -> Result<(), String> {
        let draw = |state, turns| Draw { state, turns };
        self.add(&draw(1234567, 5), "published outputs")?;
        self.add(&draw(DEFAULT_SEED, 9), "default seed")?;
        for n in [0, 1 << 52, (1 << 53) - 1] {
            let state = seeds::seed_with_draw(&mut self.random, 0, n);
            self.add(&draw(state, 2), "marked draw")?;
        }
        for state in [0, 1, u64::MAX] {
            self.add(&draw(state, 3), "special state")?;
        }
        for _ in 0..8 {
            let state = self.random.bits();
            self.add(&draw(state, 3), "random")?;
        }
        Ok(())
    }

    fn directions_and_steps(&mut self) -> Result<(), String> {
        for orth in edges::marked_directions() {
            self.add(&orth, "marked")?;
        }
        self.add(&edges::sum_of_negative_zeros(), "sums start at -0.0")?;
        self.add(
            &edges::row_of_negative_zeros(),
            "a row's sum starts at +0.0",
        )?;
        self.add(&edges::rossler_at_zero(), "-y-z is (-y)-z")?;
        let orth = |_, random: &mut Random| generate::orth::orth(random);
        self.add_random::<Orth>(20, 400, orth, unlabelled)?;
        self.add(&edges::marked_step(), "marked")?;
        let steps = generate::step::neighbours(&mut self.random);
        self.add_failing(&steps, is_of_document)?;
        self.add_random::<Step>(5, 6000, generate::step::step, step_label)
    }

    fn runs(&mut self) -> Result<(), String> {
        let mut runs = edges::edges_of_settings();
        runs.extend(edges::edges_of_lengths());
        runs.extend(edges::usual_runs());
        runs.extend(edges::pairs_of_demand_3());
        runs.extend(edges::edges_of_draws(&mut self.random));
        runs.push((edges::negative_zero_at_rest(), "a final entry of -0.0"));
        for (run, remark) in runs {
            self.add(&run, remark)?;
        }
        let runs = generate::broken_runs::neighbours(&mut self.random);
        self.add_failing(&runs, is_of_document)?;
        self.add_random::<Run>(5, 40_000, generate::runs::run, run_label)
    }

    fn settings_and_rates(&mut self) -> Result<(), String> {
        let settings = |_, random: &mut Random| Build(generate::settings::any(random));
        self.add_random::<Build>(4, 400, settings, unlabelled)?;
        let marked: [&[f64]; 4] = [&[1.0, 0.0, -2.0], &[1.0, 2.0], &[-1.0], &[-1.0, 0.5, 0.25]];
        for rates in marked {
            self.add_rates(rates, ["marked", "marked rates"])?;
        }
        self.add(&Rates(vec![]), "no rates")?;
        self.add(&Rates(vec![0.0; 256]), "as many rates as may be")?;
        self.add(&Rates(vec![0.0; 257]), "one rate too many")?;
        let half = f64::EPSILON / 2.0;
        self.add(&Rates(vec![half, half, 1.0]), "entropy in the order given")?;
        let rates = |_, random: &mut Random| generate::rates::rates(random);
        self.add_random::<Rates>(20, 200, rates, unlabelled)?;
        for length in [0, 1, 7, 9, 16, 2048, 2049, 2056] {
            self.add(&Program(vec![0x3f; length]), "length")?;
        }
        let bad = [0.0, f64::NAN].iter().flat_map(|x| x.to_le_bytes());
        self.add(&Program(bad.collect()), "a NaN")
    }

    /// The cases of rings come last and from draws of their own: the lines before them stay.
    fn rings(&mut self) -> Result<(), String> {
        self.text.push_str(RINGS);
        let mut runs = edges::edges_of_rings();
        runs.extend(edges::edges_of_forcing());
        runs.extend(edges::rings_with_a_matrix());
        for (step, remark) in edges::steps_of_rings() {
            self.add(&step, remark)?;
        }
        for (run, remark) in runs {
            self.add(&run, remark)?;
        }
        let mut random = Random::seeded(1);
        let steps = generate::step::neighbours(&mut random);
        self.add_failing(&steps, is_of_ring)?;
        let runs = generate::broken_runs::neighbours(&mut random);
        self.add_failing(&runs, is_of_ring)?;
        self.random = random.with(Systems::Of(RING));
        self.add_random::<Step>(5, 2_000, generate::step::step, step_label)?;
        self.add_random::<Run>(5, 4_000, generate::runs::run, run_label)
    }

    /// Where no count is over, 6 refuses a run, so that none is long.
    fn counts(&mut self) -> Result<(), String> {
        self.text.push_str(COUNTS);
        let at_limit = counts::at_limit();
        let run = |settings: &Settings| {
            let is_over = counts::label(settings) != counts::OVER[0];
            counts::run_at_rest(*settings, if is_over { 0.0 } else { f64::NAN })
        };
        for (settings, remark) in &at_limit {
            self.add(&Build(*settings), remark)?;
        }
        for (settings, remark) in &at_limit {
            self.add(&Validate(run(settings)), remark)?;
        }
        let accepted = Validate(counts::run_at_rest(at_limit[0].0, 0.0));
        self.add(&accepted, "at the limit, accepted")?;
        for (settings, remark) in &at_limit {
            self.add(&run(settings), remark)?;
        }
        // Those of the largest exponent, which has no warm-up windows.
        for (mut settings, remark) in at_limit {
            if counts::OVER[1..4].contains(&counts::label(&settings)) {
                settings.transient_windows = 0;
                self.add(&run(&settings), &format!("{remark}, no warm-up"))?;
            }
        }
        Ok(())
    }

    fn warm_up_steps(&mut self) -> Result<(), String> {
        self.text.push_str(WARM_UP_STEPS);
        for (run, remark) in warm_up::without_steps() {
            self.add(&Build(run.settings), remark)?;
            self.add(&Validate(run.clone()), remark)?;
            self.add(&run, remark)?;
        }
        for (settings, remark) in counts::at_limit_with_warm_up_steps() {
            // Where no count is over, 6 refuses the run, so that it is not long.
            let is_over = counts::label(&settings) != counts::OVER[0];
            let run = counts::run_at_rest(settings, if is_over { 0.0 } else { f64::NAN });
            self.add(&Build(settings), &remark)?;
            self.add(&Validate(run.clone()), &remark)?;
            self.add(&run, &remark)?;
        }
        let mut runs = warm_up::of_every_system();
        runs.extend(warm_up::of_lengths());
        runs.extend(warm_up::refused_while_they_run());
        for (run, remark) in runs {
            self.add(&run, remark)?;
        }
        self.calls_of_a_store(warm_up::kept())?;
        self.calls_of_a_dispatcher(turns::calls_with_warm_up_steps())?;
        self.random = Random::seeded(1).with_warm_up_steps();
        self.add_random::<Run>(4, 4_000, run_with_warm_up_steps, run_label)
    }

    fn sums(&mut self) -> Result<(), String> {
        self.text.push_str(SUMS);
        for orth in edges::turned_zeros() {
            for Turned { entry, from, .. } in orth.turned() {
                let remark = format!("entry {entry} was {from:016x} by sums from +0.0");
                self.add(&orth, &remark)?;
            }
        }
        let without_positive: [&[f64]; 5] = [
            &[-1.0],
            &[-1.0, -2.0],
            &[0.0],
            &[-0.0],
            &[-3.5, 0.0, -0.25, -0.0],
        ];
        for rates in without_positive {
            self.add_rates(rates, ["no rate above 0"; 2])?;
        }
        Ok(())
    }

    /// Adds rates, and the program with their bytes, each with its remark.
    fn add_rates(&mut self, rates: &[f64], remarks: [&str; 2]) -> Result<(), String> {
        self.add(&Rates(rates.to_vec()), remarks[0])?;
        let bytes = rates.iter().flat_map(|x| x.to_le_bytes());
        self.add(&Program(bytes.collect()), remarks[1])
    }

    /// Calls of one store.
    fn kept(&mut self) -> Result<(), String> {
        self.text.push_str(KEPT);
        self.calls_of_a_store(kept::calls())
    }

    fn calls_of_a_store(&mut self, calls: Vec<(Call, &str)>) -> Result<(), String> {
        let mut reference = Reference::default();
        for (call, remark) in calls {
            let answers = reference.answers(&call, Some(self.source));
            let (model, source) = answers.ok_or_else(|| format!("free: {}", call.written()))?;
            self.add_agreed(&model, source, |id, by| {
                call.line(id, &model, &format!("by={by}, {remark}"))
            })?;
        }
        Ok(())
    }

    /// Calls of one dispatcher.
    fn dispatched(&mut self) -> Result<(), String> {
        self.text.push_str(DISPATCHED);
        self.calls_of_a_dispatcher(turns::calls())
    }

    fn calls_of_a_dispatcher(
        &mut self,
        calls: Vec<(dispatcher::Call, &str)>,
    ) -> Result<(), String> {
        let mut reference = dispatcher::Reference::default();
        for (call, remark) in calls {
            let (model, alone) = reference.answers(&call);
            let source = alone.and_then(|run| run.source(self.source));
            let source = source.map(|answer| call.part_of(answer));
            self.add_agreed(&model, source, |id, by| {
                call.line(id, &model, &format!("by={by}, {remark}"))
            })?;
        }
        Ok(())
    }
}

/// A random run that gives the steps of its warm-up windows.
fn run_with_warm_up_steps(index: u64, random: &mut Random) -> Run {
    loop {
        let run = generate::runs::run(index, random);
        if run.settings.steps_per_transient_window.is_some() {
            return run;
        }
    }
}

/// Whether document 01 has the case: a system of an unknown kind is known to the C interface only.
fn is_of_document<C: Case>(case: &C) -> bool {
    !case.written().contains("sys=kind:")
}

fn is_of_ring<C: Case>(case: &C) -> bool {
    case.written().contains("sys=lorenz96:")
}

/// Ends of the format, the infinities, a NaN and the bound of the logarithm's high word.
fn special_values() -> Vec<f64> {
    let bound = 0x3ff6_a09e_0000_0000;
    let mut values = vec![
        0.0,
        1.0,
        f64::MIN_POSITIVE,
        f64::MAX,
        f64::INFINITY,
        f64::NAN,
    ];
    values.extend(values.clone().iter().map(|x| -x));
    values.push(f64::from_bits((1 << 52) - 1));
    for bits in [bound - 1, bound, bound - (1 << 52), bound - (1 << 52) - 1] {
        values.push(f64::from_bits(bits));
    }
    values
}
