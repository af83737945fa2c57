//! A whole run: its tests, the basis, the windows and what they leave.

use crate::step::{advance, is_step_size};
use crate::system;
use crate::{first_not_finite, orthonormalise, refuse_if, splitmix64, symmetric_unit};
use input::{Refusal, Settings, System, MAX_COUNT, MAX_DIMENSION};

/// Squared lengths below this are counted as faint: 2^-960.
const FAINT_BELOW: f64 = f64::from_bits((1023 - 960) << 52);

/// What a run is handed, apart from its outputs.
#[derive(Clone, Copy, Debug)]
pub struct Input<'a> {
    pub system: &'a System,
    pub time: f64,
    pub state: &'a [f64],
    pub settings: &'a Settings,
}

/// The slices that a run may write.
pub struct Outputs<'a> {
    pub rows: &'a mut [f64],
    pub exponents: &'a mut [f64],
    pub final_state: &'a mut [f64],
}

/// What a run answers beside its slices. The two times of a refused run are +0.0.
#[derive(Clone, Debug)]
pub struct Estimate {
    pub refusal: Option<Refusal>,
    /// Measured windows that were finished.
    pub finished: u64,
    /// Steps that passed every test.
    pub steps: u64,
    pub faint: [u64; MAX_DIMENSION],
    pub final_time: f64,
    pub measured_time: f64,
}

/// The place of refusal 5: the first count that is over, in the order steps, windows, warm-up, steps of
/// a warm-up window.
pub fn first_count_over(settings: &Settings) -> Option<u64> {
    if settings.steps_per_window > MAX_COUNT {
        Some(0)
    } else if settings.windows > MAX_COUNT {
        Some(1)
    } else if settings.transient_windows > MAX_COUNT {
        Some(2)
    } else if settings.transient_steps() > MAX_COUNT {
        Some(3)
    } else {
        None
    }
}

/// Tests 1 to 5, with 29 after 4.
pub fn build_config(settings: &Settings) -> Result<(), Refusal> {
    refuse_if(settings.top_k == 0, Refusal::of(1))?;
    refuse_if(!is_step_size(settings.step_size), Refusal::of(2))?;
    refuse_if(settings.steps_per_window == 0, Refusal::of(3))?;
    refuse_if(settings.windows == 0, Refusal::of(4))?;
    refuse_if(settings.transient_steps() == 0, Refusal::of(29))?;
    match first_count_over(settings) {
        Some(place) => Err(Refusal::at(5, place)),
        None => Ok(()),
    }
}

/// A run from `time` and `state`.
pub fn estimate(
    system: &System,
    time: f64,
    state: &[f64],
    settings: &Settings,
    outputs: &mut Outputs,
) -> Estimate {
    let tested = validate(system, time, state, settings)
        .and_then(|()| output_tests(state.len(), settings, outputs));
    if let Err(refusal) = tested {
        return refused(refusal, 0, 0);
    }
    let mut run = match Run::begin(time, state, settings) {
        Ok(run) => run,
        Err(refusal) => return refused(refusal, 0, 0),
    };
    loop {
        if let Some(answer) = run.next_window(system, outputs) {
            return answer;
        }
    }
}

/// What a run answers that is refused after so many finished windows and steps.
pub(crate) fn refused(refusal: Refusal, finished: u64, steps: u64) -> Estimate {
    Estimate {
        refusal: Some(refusal),
        finished,
        steps,
        faint: [0; MAX_DIMENSION],
        final_time: 0.0,
        measured_time: 0.0,
    }
}

/// Tests 1 to 12, in number order, with 29 after 4 and 25 after 8.
pub fn validate(
    system: &System,
    time: f64,
    state: &[f64],
    settings: &Settings,
) -> Result<(), Refusal> {
    build_config(settings)?;
    refuse_if(!time.is_finite(), Refusal::of(6))?;
    system::tests(system)?;
    let d = system.dimension();
    refuse_if(state.len() != d, Refusal::of(10))?;
    if let Some(index) = first_not_finite(state) {
        return Err(Refusal::at(11, index));
    }
    refuse_if(settings.top_k > d, Refusal::of(12))
}

/// Test 13, of settings that passed the others.
pub(crate) fn output_tests(
    d: usize,
    settings: &Settings,
    outputs: &Outputs,
) -> Result<(), Refusal> {
    let rows = settings.windows as usize * (1 + 2 * settings.top_k);
    refuse_if(outputs.rows.len() < rows, Refusal::at(13, 0))?;
    let exponents = outputs.exponents.len();
    refuse_if(exponents < settings.top_k, Refusal::at(13, 1))?;
    refuse_if(outputs.final_state.len() < d, Refusal::at(13, 2))
}

/// A run that has begun and is not over: what it carries from window to window.
#[derive(Clone, Debug)]
pub(crate) struct Run {
    pub(crate) settings: Settings,
    /// Windows that were begun, warm-up included.
    pub(crate) begun: u64,
    finished: u64,
    duration: f64,
    time: f64,
    state: Vec<f64>,
    directions: Vec<f64>,
    /// The logarithms of the last orthonormalisation, then its squared lengths.
    norms: Vec<f64>,
    sums: Vec<f64>,
    faint: [u64; MAX_DIMENSION],
    steps: u64,
}

impl Run {
    /// The basis and test 15, of what passed the tests before.
    pub(crate) fn begin(time: f64, state: &[f64], settings: &Settings) -> Result<Self, Refusal> {
        let mut run = Self {
            settings: *settings,
            begun: 0,
            finished: 0,
            duration: settings.step_size * settings.steps_per_window as f64,
            time,
            state: state.to_vec(),
            directions: vec![0.0; settings.top_k * state.len()],
            norms: vec![0.0; 2 * settings.top_k],
            sums: vec![0.0; settings.top_k],
            faint: [0; MAX_DIMENSION],
            steps: 0,
        };
        run.draw_basis()?;
        refuse_if(!run.duration.is_finite(), Refusal::of(15))?;
        Ok(run)
    }

    /// Makes the next window, those of the warm-up first; answers once the run is over.
    pub(crate) fn next_window(
        &mut self,
        system: &System,
        outputs: &mut Outputs,
    ) -> Option<Estimate> {
        self.begun += 1;
        let is_measured = self.begun > self.settings.transient_windows;
        let steps = match is_measured {
            true => self.settings.steps_per_window,
            false => self.settings.transient_steps(),
        };
        if let Err(refusal) = self.window(system, steps) {
            return Some(refused(refusal, self.finished, self.steps));
        }
        if is_measured {
            self.report(outputs);
        }
        (self.finished == self.settings.windows).then(|| self.end(outputs))
    }

    /// Writes what a run leaves that is not refused.
    fn end(&self, outputs: &mut Outputs) -> Estimate {
        let measured_time = self.duration * self.settings.windows as f64;
        for (exponent, sum) in outputs.exponents.iter_mut().zip(&self.sums) {
            *exponent = sum / measured_time;
        }
        outputs.final_state[..self.state.len()].copy_from_slice(&self.state);
        Estimate {
            refusal: None,
            finished: self.finished,
            steps: self.steps,
            faint: self.faint,
            final_time: self.time,
            measured_time,
        }
    }

    /// Draws direction 0, then direction 1, and on; the draw is no window.
    fn draw_basis(&mut self) -> Result<(), Refusal> {
        let mut generator = self.settings.seed;
        for entry in &mut self.directions {
            let (next, output) = splitmix64(generator);
            generator = next;
            *entry = symmetric_unit(output);
        }
        orthonormalise(&mut self.directions, self.state.len(), &mut self.norms)
    }

    fn window(&mut self, system: &System, steps: u64) -> Result<(), Refusal> {
        let h = self.settings.step_size;
        for _ in 0..steps {
            advance(system, h, &mut self.state, &mut self.directions)?;
            let next = self.time + h;
            refuse_if(!next.is_finite(), Refusal::of(18))?;
            self.time = next;
            self.steps += 1;
        }
        orthonormalise(&mut self.directions, self.state.len(), &mut self.norms)?;
        let squared_lengths = &self.norms[self.settings.top_k..];
        for (count, squared) in self.faint.iter_mut().zip(squared_lengths) {
            if *squared < FAINT_BELOW {
                *count += 1;
            }
        }
        Ok(())
    }

    /// Adds the logarithms of a measured window and writes its row.
    fn report(&mut self, outputs: &mut Outputs) {
        let (k, width) = (self.settings.top_k, self.settings.row_width());
        let row = &mut outputs.rows[self.finished as usize * width..];
        self.finished += 1;
        let elapsed = self.duration * self.finished as f64;
        row[0] = self.time;
        for i in 0..k {
            self.sums[i] += self.norms[i];
            row[1 + i] = self.norms[i] / self.duration;
            row[1 + k + i] = self.sums[i] / elapsed;
        }
    }
}

#[cfg(test)]
mod tests;
