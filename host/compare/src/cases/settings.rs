//! Settings, and building them.

use super::{Called, Case};
use crate::line::Fields;
use crate::values::{bits, word, Answer};
use input::{Refusal, Settings, System};
use oracle::{End, Source};

pub fn read(fields: &mut Fields) -> Result<Settings, String> {
    Ok(Settings {
        top_k: fields.size("K")?,
        step_size: fields.float("h")?,
        steps_per_window: fields.count("steps")?,
        windows: fields.count("windows")?,
        transient_windows: fields.count("warmup")?,
        steps_per_transient_window: fields.given_count("warmupsteps")?,
        seed: fields.word("seed")?,
    })
}

/// The steps of a warm-up window are written where they are given.
pub fn written(settings: &Settings) -> String {
    let given = settings.steps_per_transient_window;
    format!(
        "K={} h={} steps={} windows={} warmup={}{} seed={}",
        settings.top_k,
        bits(&settings.step_size),
        settings.steps_per_window,
        settings.windows,
        settings.transient_windows,
        given.map_or(String::new(), |steps| format!(" warmupsteps={steps}")),
        word(&settings.seed)
    )
}

/// Whether warm-up windows have the steps of measured ones. Only such settings go to the source.
pub fn has_equal_steps(settings: &Settings) -> bool {
    settings.transient_steps() == settings.steps_per_window
}

/// Building settings: tests 1 to 5, with 29 after 4.
#[derive(Clone, Copy, Debug)]
pub struct Build(pub Settings);

impl Case for Build {
    const KIND: &'static str = "build";
    const ANSWER: &'static [&'static str] = &["num", "place"];

    fn read(fields: &mut Fields) -> Result<Self, String> {
        read(fields).map(Self)
    }

    fn written(&self) -> String {
        written(&self.0)
    }

    fn model(&self) -> Answer {
        let built = model::build_config(&self.0);
        Answer::refusal(built.err().unwrap_or(Refusal::NONE))
    }

    /// The source has no 5, which comes after its own tests.
    fn source(&self, source: &dyn Source) -> Option<Answer> {
        if !has_equal_steps(&self.0) {
            return None;
        }
        let fits = model::first_count_over(&self.0).is_none();
        match source.build_config(&self.0) {
            End::Refused(refusal) => Some(Answer::refusal(refusal)),
            End::Done(()) if fits => Some(Answer::done()),
            _ => None,
        }
    }
}

impl Called for Build {
    /// The library's builder has no warm-up, as the source's has none. So a run is asked for the same
    /// tests. The builder answers as a run with no warm-up windows and equal steps.
    fn library(&self) -> Result<Answer, String> {
        let built = lyapunov_sys::build_config(&self.0);
        let by_run = self.without_warm_up().tested_by_run();
        if built != by_run {
            return Err(format!("builder: {built:?}, run: {by_run:?}"));
        }
        Ok(Answer::refusal(self.tested_by_run()))
    }
}

impl Build {
    fn without_warm_up(&self) -> Self {
        Self(Settings {
            transient_windows: 0,
            steps_per_transient_window: None,
            ..self.0
        })
    }

    /// The refusal of a run whose start time is not finite: 6 follows 1 to 5.
    fn tested_by_run(&self) -> Refusal {
        let system = System::VanDerPol { mu: 0.0 };
        let mut outputs = lyapunov_sys::Outputs {
            rows: &mut [],
            exponents: &mut [],
            final_state: &mut [],
            counts: &mut [lyapunov_sys::UNWRITTEN; 19],
            times: &mut [0.0; 2],
        };
        let number =
            lyapunov_sys::estimate_spectrum_at(&system, f64::NAN, &[], &self.0, &mut outputs);
        Refusal {
            number: if number == 6 { 0 } else { number },
            place: outputs.counts[0],
        }
    }
}
