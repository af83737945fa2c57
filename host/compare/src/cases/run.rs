//! A whole run.

use super::{settings, turn_in, Called, Case, Slices};
use crate::circuit::Circuit;
use crate::lent::Lent;
use crate::line::Fields;
use crate::values::{bits, list, Answer, Value, FILLING};
use input::{Refusal, Settings, MAX_DIMENSION};
use lyapunov_sys::{Arguments, Outputs};
use oracle::{End, Entry, Source, Start};

/// The functions that start at time 0 are asked for the runs that `at_zero` and `largest` make.
#[derive(Clone, Debug)]
pub struct Run {
    entry: Entry,
    pub circuit: Circuit,
    pub settings: Settings,
    pub time: f64,
    pub state: Vec<f64>,
    /// The lengths of the outputs.
    pub rows: usize,
    pub exponents: usize,
    pub final_state: usize,
}

/// What a run answers beside its slices, and the slices after the call.
#[derive(Clone, Debug)]
pub struct Outcome {
    pub refusal: Refusal,
    pub finished: u64,
    pub steps: u64,
    pub faint: Vec<u64>,
    pub final_time: f64,
    pub measured_time: f64,
    pub rows: Vec<f64>,
    pub exponents: Vec<f64>,
    pub final_state: Vec<f64>,
}

impl Case for Run {
    const KIND: &'static str = "run";
    const ANSWER: &'static [&'static str] = &[
        "num", "place", "finished", "made", "faint", "ftime", "mtime", "rows", "exps", "final",
    ];

    fn read(fields: &mut Fields) -> Result<Self, String> {
        let lengths = Slices::read(fields)?;
        Ok(Self::read_input(fields)?.with_lengths(&lengths))
    }

    fn written(&self) -> String {
        let (input, lengths) = (self.written_input(), self.lengths().written());
        format!("{input} {lengths}")
    }

    fn model(&self) -> Answer {
        let (system, settings) = (&self.circuit.system, &self.settings);
        let answer = self.answer_of_model(|outputs| {
            let estimate = model::estimate(system, self.time, &self.state, settings, outputs);
            Some(estimate)
        });
        answer.expect("the answer of a run is never free")
    }

    /// The source has no 13 and no faint counts, and it drops the rows of a refused run; these are
    /// those of its run for the finished windows.
    fn source(&self, source: &dyn Source) -> Option<Answer> {
        let tested = self.validated_by_source(source)?;
        if tested == Refusal::NONE && self.has_short_output() {
            return None;
        }
        let run = match tested {
            Refusal::NONE => self.run_of_source(source, self.settings.windows, true),
            refusal => oracle::Run {
                end: End::Refused(refusal),
                steps: 0,
                finished: 0,
            },
        };
        match run.end {
            End::Done(spectrum) => Some(self.answer_of_source(&spectrum, run.steps)),
            End::Refused(refusal) => {
                let mut rows = vec![];
                if run.finished > 0 {
                    rows = self.rows_of_source(source, run.finished);
                }
                let answer = Answer::refusal(refusal)
                    .with("finished", Value::Count(run.finished))
                    .with("made", Value::Count(run.steps))
                    .with("rows", Value::Leading(rows));
                Some(answer)
            }
            End::Stopped => None,
        }
    }

    fn size(&self) -> Option<(usize, usize)> {
        Some((self.circuit.dimension(), self.settings.top_k))
    }
}

impl Called for Run {
    fn library(&self) -> Result<Answer, String> {
        Ok(self.outcome()?.answer())
    }
}

impl Run {
    /// The tests before the first step in their order.
    pub const TESTS: [u64; 17] = [1, 2, 3, 4, 29, 5, 6, 7, 8, 25, 9, 10, 11, 12, 13, 14, 15];

    /// What is handed in apart from the outputs; these just fit.
    pub fn read_input(fields: &mut Fields) -> Result<Self, String> {
        let circuit = Circuit::read(fields)?;
        Self::read_of(circuit, fields)
    }

    /// The same of a circuit that is read already.
    pub fn read_of(circuit: Circuit, fields: &mut Fields) -> Result<Self, String> {
        let settings = settings::read(fields)?;
        let (time, state) = (fields.float("t0")?, fields.floats("x0")?);
        Ok(Self::fitting(circuit, settings, time, state))
    }

    pub fn written_input(&self) -> String {
        self.written_of(&self.circuit.written())
    }

    /// The same of a circuit as it is written.
    pub fn written_of(&self, circuit: &str) -> String {
        let settings = settings::written(&self.settings);
        let (time, state) = (bits(&self.time), list(&self.state, ",", bits));
        format!("{circuit} {settings} t0={time} x0={state}")
    }

    /// A run with outputs that just fit.
    pub fn fitting(circuit: Circuit, settings: Settings, time: f64, state: Vec<f64>) -> Self {
        Self {
            entry: Entry::SpectrumAt,
            time,
            state,
            rows: settings.rows_length(),
            exponents: settings.top_k,
            final_state: circuit.dimension(),
            circuit,
            settings,
        }
    }

    /// The run that `estimate_spectrum` makes: from time 0.
    pub fn at_zero(mut self) -> Self {
        self.entry = Entry::Spectrum;
        self.time = 0.0;
        self
    }

    /// The run that `estimate_largest` makes: from time 0 for one exponent, with no warm-up and the
    /// default seed. Outputs that just fitted just fit again.
    pub fn largest(self) -> Self {
        let before = self.settings;
        let (h, steps) = (before.step_size, before.steps_per_window);
        let settings = Settings::new(1, h, steps, before.windows);
        let less = |a: usize, b: usize| a.saturating_sub(b);
        Self {
            entry: Entry::Largest,
            settings,
            rows: less(
                self.rows,
                less(before.rows_length(), settings.rows_length()),
            ),
            exponents: less(self.exponents, less(before.top_k, 1)),
            ..self.at_zero()
        }
    }

    /// The answer of the run that `call` makes in the model; nothing where it is free.
    pub fn answer_of_model(
        &self,
        call: impl FnOnce(&mut model::Outputs) -> Option<model::Estimate>,
    ) -> Option<Answer> {
        let mut slices = self.lengths().filled();
        let estimate = call(&mut slices.for_model())?;
        Some(Outcome::of_model(&estimate, slices).answer())
    }

    /// The answer of a run that is refused before it begins.
    pub fn answer_untouched(&self, refusal: Refusal) -> Answer {
        Outcome::untouched(refusal, self.lengths().filled()).answer()
    }

    /// What the model is handed.
    pub fn input(&self) -> model::Input<'_> {
        model::Input {
            system: &self.circuit.system,
            time: self.time,
            state: &self.state,
            settings: &self.settings,
        }
    }

    pub fn lengths(&self) -> Slices<usize> {
        Slices {
            rows: self.rows,
            exponents: self.exponents,
            final_state: self.final_state,
        }
    }

    /// The same run with outputs of these lengths.
    pub fn with_lengths(self, lengths: &Slices<usize>) -> Self {
        Self {
            rows: lengths.rows,
            exponents: lengths.exponents,
            final_state: lengths.final_state,
            ..self
        }
    }

    /// The library's run.
    pub fn outcome(&self) -> Result<Outcome, String> {
        self.outcome_of(|system, state, outputs| self.run_of_library(system, state, outputs))
    }

    /// The run that `call` makes in the library, with slices lent to it.
    pub fn outcome_of(
        &self,
        call: impl FnOnce(Arguments, &[f64], &mut Outputs) -> u64,
    ) -> Result<Outcome, String> {
        let arguments = self.circuit.arguments();
        let matrix = Lent::input("mat", arguments.matrix);
        let state = Lent::input("x0", &self.state);
        let lent = Arguments {
            matrix: matrix.slice(),
            ..arguments
        };
        let mut slices = self.lengths().lent();
        let outcome = slices.to(|outputs| call(lent, state.slice(), outputs))?;
        matrix.unchanged(arguments.matrix)?;
        state.unchanged(&self.state)?;
        Ok(outcome)
    }

    fn run_of_library(&self, system: Arguments, state: &[f64], outputs: &mut Outputs) -> u64 {
        let (time, settings) = (self.time, &self.settings);
        match self.entry {
            Entry::SpectrumAt => {
                lyapunov_sys::estimate_spectrum_at(system, time, state, settings, outputs)
            }
            Entry::Spectrum => lyapunov_sys::estimate_spectrum(system, state, settings, outputs),
            Entry::Largest => lyapunov_sys::estimate_largest(system, state, settings, outputs),
        }
    }

    /// What the source answers to this run after `earlier` windows: that of its one run of all
    /// windows, without the earlier rows.
    pub fn later_by_source(&self, source: &dyn Source, earlier: u64) -> Option<Answer> {
        let mut all = self.clone();
        let before = self.settings.row_width().saturating_mul(earlier as usize);
        if self.settings.windows > 0 {
            all.settings.windows = earlier.saturating_add(self.settings.windows);
            all.rows = all.rows.saturating_add(before);
        }
        let answer = all.source(source)?;
        Some(answer.map("rows", |rows| rows.without_first(before)))
    }

    pub fn has_short_output(&self) -> bool {
        self.rows < self.settings.rows_length()
            || self.exponents < self.settings.top_k
            || self.final_state < self.circuit.dimension()
    }

    /// The source's first failing test up to 12; nothing where one of 5, 8, 25 and 9, which it does
    /// not have, fails before it, or where warm-up windows have steps of their own. It is stopped at
    /// its first evaluation.
    pub fn validated_by_source(&self, source: &dyn Source) -> Option<Refusal> {
        if !settings::has_equal_steps(&self.settings) {
            return None;
        }
        if model::first_count_over(&self.settings).is_some() {
            return match source.build_config(&self.settings) {
                End::Refused(refusal) => Some(refusal),
                _ => None,
            };
        }
        // It asks for the memory of all its windows before it is stopped.
        let windows = self.settings.windows.min(1);
        let refusal = match self.run_of_source(source, windows, false).end {
            End::Refused(refusal) if refusal.number <= 12 => refusal,
            _ => Refusal::NONE,
        };
        let turn = |number| turn_in(&Self::TESTS, number);
        match self.circuit.added_refusal() {
            Some(added) if refusal == Refusal::NONE || turn(refusal.number) > turn(added) => None,
            _ => Some(refusal),
        }
    }

    fn run_of_source(&self, source: &dyn Source, windows: u64, may_evaluate: bool) -> oracle::Run {
        let circuit = oracle::Circuit {
            system: &self.circuit.system,
            may_evaluate,
            neighbours: Default::default(),
        };
        let start = Start {
            time: self.time,
            state: &self.state,
        };
        let mut settings = self.settings;
        settings.windows = windows;
        source.run(self.entry, circuit, start, &settings)
    }

    /// The rows of the source's run for `windows` windows.
    fn rows_of_source(&self, source: &dyn Source, windows: u64) -> Vec<f64> {
        match self.run_of_source(source, windows, true).end {
            End::Done(spectrum) => spectrum.rows,
            end => unreachable!("{windows} windows were finished, but {end:?}"),
        }
    }

    fn answer_of_source(&self, spectrum: &oracle::Spectrum, steps: u64) -> Answer {
        Answer::done()
            .with("finished", Value::Count(self.settings.windows))
            .with("made", Value::Count(steps))
            .with("ftime", Value::Float(spectrum.final_time))
            .with("mtime", Value::Float(spectrum.measured_time))
            .with("rows", filled(&spectrum.rows, self.rows))
            .with("exps", filled(&spectrum.exponents, self.exponents))
            .with("final", filled(&spectrum.final_state, self.final_state))
    }
}

impl Outcome {
    /// What a run of the model answers, and leaves in its slices.
    pub fn of_model(estimate: &model::Estimate, slices: Slices<Vec<f64>>) -> Self {
        Self {
            refusal: estimate.refusal.unwrap_or(Refusal::NONE),
            finished: estimate.finished,
            steps: estimate.steps,
            faint: estimate.faint.to_vec(),
            final_time: estimate.final_time,
            measured_time: estimate.measured_time,
            rows: slices.rows,
            exponents: slices.exponents,
            final_state: slices.final_state,
        }
    }

    /// What a run answers that is refused before it begins.
    pub fn untouched(refusal: Refusal, slices: Slices<Vec<f64>>) -> Self {
        let nothing = model::Estimate {
            refusal: Some(refusal),
            finished: 0,
            steps: 0,
            faint: [0; MAX_DIMENSION],
            final_time: 0.0,
            measured_time: 0.0,
        };
        Self::of_model(&nothing, slices)
    }

    pub fn slices(self) -> Slices<Vec<f64>> {
        Slices {
            rows: self.rows,
            exponents: self.exponents,
            final_state: self.final_state,
        }
    }

    pub fn answer(self) -> Answer {
        let times = [self.final_time, self.measured_time];
        let [final_time, measured_time] = times.map(|time| self.time(time));
        Answer::refusal(self.refusal)
            .with("finished", Value::Count(self.finished))
            .with("made", Value::Count(self.steps))
            .with("faint", Value::Counts(self.faint))
            .with("ftime", final_time)
            .with("mtime", measured_time)
            .with("rows", Value::Floats(self.rows))
            .with("exps", Value::Floats(self.exponents))
            .with("final", Value::Floats(self.final_state))
    }

    /// A time of the answer: the +0.0 of a refused run is no value.
    fn time(&self, time: f64) -> Value {
        if self.refusal != Refusal::NONE && time.to_bits() == 0 {
            Value::Nothing
        } else {
            Value::Float(time)
        }
    }
}

/// `values` at the begin of an output of `length` entries.
fn filled(values: &[f64], length: usize) -> Value {
    let mut output = vec![FILLING; length];
    output[..values.len()].copy_from_slice(values);
    Value::Floats(output)
}
