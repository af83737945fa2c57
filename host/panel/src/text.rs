//! The results for people.

use crate::circuit::Circuit;
use crate::measured::{moved, Measured, Stopped};
use crate::turns::Unfinished;
use field_lyapunov::{
    kaplan_yorke_dimension, kolmogorov_sinai_entropy, BenettinConfig, LyapunovError, RefusedRun,
    SpectrumEstimate,
};
use std::fmt::Write as _;

/// A section a circuit; a single run that is refused has none.
pub fn report(measured: &[Measured]) -> String {
    let sections: Vec<String> = measured.iter().map(section).collect();
    sections.join("\n")
}

fn section(measured: &Measured) -> String {
    let circuit = measured.circuit;
    let heading = match &circuit.name {
        Some(name) => format!("circuit {name}\n"),
        None => String::new(),
    };
    let results = match &measured.run {
        Ok(estimate) => ended(measured, estimate),
        Err(Stopped::Interrupted(run)) => unfinished(run),
        Err(Stopped::Refused(_)) if heading.is_empty() => return String::new(),
        Err(Stopped::Refused(_)) => String::new(),
    };
    let stop = stop(measured).map_or(String::new(), |words| words + "\n");
    format!("{heading}{}\n{results}{stop}", input(circuit))
}

fn ended(measured: &Measured, estimate: &SpectrumEstimate) -> String {
    let faint = |direction: usize| estimate.faint_counts()[direction].to_string();
    let mut text = rates(estimate.exponents(), faint);
    let (time, duration) = (estimate.final_time(), estimate.measured_time());
    let steps = estimate.steps();
    let _ = writeln!(
        text,
        "measured time {duration}, final time {time}, steps {steps}"
    );
    text.push_str(&continuations(measured, estimate));
    text.push_str(&warning(measured.circuit, measured.longest(estimate)));
    text
}

/// The rates of the finished windows; nothing where there are none. Faint windows are told at the
/// end of a run.
fn unfinished(run: &Unfinished) -> String {
    match run.rates() {
        [] => String::new(),
        finished => rates(finished, |_| "not known".to_string()),
    }
}

/// The rates with their faint counts, the dimension and the entropy.
fn rates(rates: &[f64], faint: impl Fn(usize) -> String) -> String {
    let mut text = String::from("direction            rate    faint windows\n");
    for (direction, rate) in rates.iter().enumerate() {
        let (rate, faint) = (decimal(*rate, 6), faint(direction));
        let _ = writeln!(text, "{direction:>9}  {rate:>14}  {faint:>15}");
    }
    text.push('\n');
    let dimension = kaplan_yorke_dimension(rates);
    let _ = writeln!(text, "Kaplan-Yorke dimension     {}", number(dimension));
    let entropy = kolmogorov_sinai_entropy(rates);
    let _ = writeln!(text, "Kolmogorov-Sinai entropy   {}", number(entropy));
    text
}

/// The rates of the continuations beside each other; nothing where there are none.
fn continuations(measured: &Measured, run: &SpectrumEstimate) -> String {
    if measured.continuations.is_empty() {
        return String::new();
    }
    let mut heading = String::from("direction");
    let directions = 0..run.exponents().len();
    let mut lines: Vec<String> = directions.map(|at| format!("{at:>9}")).collect();
    for (more, answer) in &measured.continuations {
        let more = format!("+{more}");
        let _ = write!(heading, "  {more:>14}  {:>14}", "moved");
        let moved = answer.as_ref().map(|then| moved(run, then));
        for (direction, line) in lines.iter_mut().enumerate() {
            let [rate, moved] = match (answer, &moved) {
                (Ok(then), Ok(moved)) => {
                    [then.exponents(), moved].map(|x| decimal(x[direction], 6))
                }
                _ => ["refused", ""].map(String::from),
            };
            let _ = write!(line, "  {rate:>14}  {moved:>14}");
        }
    }
    let lines: Vec<&str> = lines.iter().map(|line| line.trim_end()).collect();
    let lines = lines.join("\n");
    format!("\nrates after so many windows more, and how they moved\n{heading}\n{lines}\n")
}

fn input(circuit: &Circuit) -> String {
    let state: Vec<String> = circuit.state.iter().map(f64::to_string).collect();
    let (title, state, time) = (circuit.choice.title(), state.join(", "), circuit.time);
    let mut text = format!("{title}\nfrom ({state}) at time {time}\n");
    if let Ok(config) = &circuit.config {
        let _ = writeln!(
            text,
            "step size {}, steps a window {}, windows {} after {} of warm-up{}, seed 0x{:016x}",
            config.step_size(),
            config.steps_per_window(),
            config.windows(),
            config.transient_windows(),
            own_warm_up_steps(config)
                .map_or(String::new(), |steps| format!(" with {steps} steps each")),
            config.seed()
        );
    }
    text
}

/// The steps of a warm-up window, where they are not those of a measured one.
fn own_warm_up_steps(config: &BenettinConfig) -> Option<usize> {
    let steps = config.steps_per_transient_window();
    (steps != config.steps_per_window()).then_some(steps)
}

/// With `digits` after the point, and with an exponent where it is long before the point.
pub fn decimal(x: f64, digits: usize) -> String {
    if x.abs() < 1e9 {
        format!("{x:.digits$}")
    } else {
        format!("{x:.digits$e}")
    }
}

/// With a comma before every three digits.
pub fn grouped(number: u64) -> String {
    let digits = number.to_string();
    let mut text = String::new();
    for (at, digit) in digits.chars().enumerate() {
        if at > 0 && (digits.len() - at).is_multiple_of(3) {
            text.push(',');
        }
        text.push(digit);
    }
    text
}

/// A dimension or an entropy. The entropy of a spectrum without a positive rate is −0.0, which a
/// person reads as 0: the sum with +0.0 has no sign.
fn number(answer: field_lyapunov::Result<f64>) -> String {
    match answer {
        Ok(x) => decimal(x + 0.0, 6),
        Err(error) => format!("none: {}", refused(&error)),
    }
}

/// What faint counts mean and what to do about them; nothing where all are 0.
fn warning(circuit: &Circuit, estimate: &SpectrumEstimate) -> String {
    let counts = estimate.faint_counts();
    let first = counts.iter().position(|count| *count > 0);
    let (Some(first), Ok(config)) = (first, &circuit.config) else {
        return String::new();
    };
    let all = config.transient_windows() + estimate.finished_windows();
    let count = counts[first];
    let of_warm_up = own_warm_up_steps(config).map_or(String::new(), |steps| {
        format!("; in the warm-up --warm-up-steps, now {steps}")
    });
    format!(
        "\nWARNING: direction {first} became so short in {count} of {all} windows that its square \
         is below 2^-960.\nThe rates from direction {first} on may be wrong, although they look \
         like rates.\nRun again with shorter windows: fewer steps a window (--steps, now {}{of_warm_up}) or a \
         smaller step size (--step, now {}).\n",
        config.steps_per_window(),
        config.step_size()
    )
}

/// A refusal in words, with its number and its place.
fn refused(error: &LyapunovError) -> String {
    let (number, place) = (error.number(), error.place());
    format!("refused by {number} at place {place}: {error}")
}

/// The option that gives a count that is over; a continuation adds to the windows.
fn option(error: &LyapunovError, then: Option<usize>) -> &'static str {
    match error {
        LyapunovError::CountAboveLimit(0) => " (--steps)",
        LyapunovError::CountAboveLimit(1) if then.is_some() => " (--windows and --then together)",
        LyapunovError::CountAboveLimit(1) => " (--windows)",
        LyapunovError::CountAboveLimit(2) => " (--warm-up)",
        LyapunovError::CountAboveLimit(_) | LyapunovError::ZeroStepsPerTransientWindow => {
            " (--warm-up-steps)"
        }
        _ => "",
    }
}

/// A refused run, or a refused continuation by so many windows.
fn refusal(then: Option<usize>, run: &RefusedRun) -> String {
    let error = run.error();
    let name = then.map_or(String::new(), |more| format!("--then {more}: "));
    let (words, option) = (refused(&error), option(&error, then));
    let (windows, steps) = (run.finished_windows(), run.steps());
    format!("{name}{words}{option} (finished windows: {windows}, steps: {steps})")
}

/// How far an interrupted run came, and what that means for its rates.
fn interruption(circuit: &Circuit, run: &Unfinished) -> [String; 2] {
    let counts = |config: &BenettinConfig| [config.transient_windows(), config.windows()];
    let counts = circuit.config.as_ref().map_or([0, 0], counts);
    let [warm_up, windows] = counts.map(|count| count as u64);
    let (done, all, of, rates) = match run.begun().saturating_sub(warm_up) {
        0 => (
            run.begun(),
            warm_up,
            "windows of warm-up",
            "there are no rates yet",
        ),
        finished => (
            finished,
            windows,
            "windows",
            "the rates are those of the finished windows",
        ),
    };
    let (done, all) = (grouped(done), grouped(all));
    [
        format!("interrupted after {done} of {all} {of}"),
        rates.to_string(),
    ]
}

/// Why the run did not make all its windows; `None` where it did.
fn stop(measured: &Measured) -> Option<String> {
    Some(match measured.run.as_ref().err()? {
        Stopped::Refused(refused) => refusal(None, refused),
        Stopped::Interrupted(run) => interruption(measured.circuit, run).join(": "),
    })
}

/// The beginning of it, for a line of a drawing.
pub fn short_stop(measured: &Measured) -> Option<String> {
    Some(match measured.run.as_ref().err()? {
        Stopped::Refused(run) => refused(&run.error()),
        Stopped::Interrupted(run) => {
            let [how_far, _] = interruption(measured.circuit, run);
            how_far
        }
    })
}

/// Why the run and its continuations did not make all their windows, with the circuit's name.
pub fn stops(measured: &Measured) -> Vec<String> {
    let then = measured
        .continuations
        .iter()
        .filter_map(|(more, answer)| match answer {
            Err(Stopped::Refused(refused)) => Some(refusal(Some(*more), refused)),
            _ => None,
        });
    let named = |words| match &measured.circuit.name {
        Some(name) => format!("{name}: {words}"),
        None => words,
    };
    stop(measured).into_iter().chain(then).map(named).collect()
}

#[cfg(test)]
mod tests {
    #[test]
    fn digits_in_groups_of_three() {
        let texts = [0, 12, 999, 1_000, 16_777_216].map(super::grouped);
        assert_eq!(texts, ["0", "12", "999", "1,000", "16,777,216"]);
    }
}
