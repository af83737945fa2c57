//! The results for programs: one JSON object. Floats are the shortest decimals that read back as
//! the same float, and one that is not finite is null.

use crate::circuit::Circuit;
use crate::measured::{moved, Answer, Measured, Stopped};
use crate::turns::Unfinished;
use field_lyapunov::{
    kaplan_yorke_dimension, kolmogorov_sinai_entropy, BenettinConfig, RefusedRun, SpectrumEstimate,
};

/// The one circuit without a name, or a list of several.
pub fn report(measured: &[Measured]) -> String {
    let report = match measured {
        [alone] if alone.circuit.name.is_none() => of_circuit(alone),
        _ => {
            let circuits: Vec<String> = measured.iter().map(of_circuit).collect();
            object(&[("circuits", list(&circuits))])
        }
    };
    report + "\n"
}

fn of_circuit(measured: &Measured) -> String {
    let circuit = measured.circuit;
    let name = circuit.name.iter().map(|name| ("name", text(name)));
    let mut fields: Vec<Field> = name.collect();
    if let Ok(config) = &circuit.config {
        fields.extend(input(circuit, config));
    }
    fields.extend(answered(&measured.run));
    if let (Ok(run), false) = (&measured.run, measured.continuations.is_empty()) {
        let then = measured.continuations.iter();
        let then: Vec<String> = then
            .map(|(more, answer)| continuation(*more, answer, run))
            .collect();
        fields.push(("continuations", list(&then)));
    }
    object(&fields)
}

/// The results after so many windows more, and how far the rates are from those of the run.
fn continuation(more: usize, answer: &Answer, run: &SpectrumEstimate) -> String {
    let mut fields = vec![("more_windows", more.to_string())];
    fields.extend(answered(answer));
    if let Ok(estimate) = answer {
        fields.push(("moved", floats(&moved(run, estimate))));
    }
    object(&fields)
}

type Field = (&'static str, String);

fn answered(answer: &Answer) -> Vec<Field> {
    match answer {
        Ok(estimate) => results(estimate),
        Err(Stopped::Refused(refused)) => vec![("refused", refusal(refused))],
        Err(Stopped::Interrupted(run)) => unfinished(run),
    }
}

fn input(circuit: &Circuit, config: &BenettinConfig) -> Vec<Field> {
    let choice = &circuit.choice;
    vec![
        ("system", text(choice.offer.name)),
        ("parameters", floats(&choice.parameters)),
        ("matrix", floats(&choice.matrix)),
        ("state_dimension", choice.system.dimension().to_string()),
        ("initial_time", float(circuit.time)),
        ("initial_state", floats(&circuit.state)),
        ("top_k", config.top_k().to_string()),
        ("step_size", float(config.step_size())),
        ("steps_per_window", config.steps_per_window().to_string()),
        ("windows", config.windows().to_string()),
        ("transient_windows", config.transient_windows().to_string()),
        (
            "steps_per_transient_window",
            config.steps_per_transient_window().to_string(),
        ),
        // A program may hold numbers as floats, which have no room for 64 bits.
        ("seed", text(&format!("0x{:016x}", config.seed()))),
    ]
}

fn results(estimate: &SpectrumEstimate) -> Vec<Field> {
    let exponents = estimate.exponents();
    let counts = estimate.faint_counts();
    let faint: Vec<String> = counts.iter().map(u64::to_string).collect();
    let mut fields = vec![
        ("exponents", floats(exponents)),
        ("faint_counts", list(&faint)),
    ];
    fields.extend(diagnostics(exponents));
    fields.extend([
        ("final_state", floats(estimate.final_state())),
        ("final_time", float(estimate.final_time())),
        ("measured_time", float(estimate.measured_time())),
        ("steps", estimate.steps().to_string()),
    ]);
    fields
}

/// The results of the finished windows. Without such windows there are no exponents.
fn unfinished(run: &Unfinished) -> Vec<Field> {
    let exponents = run.rates();
    let mut fields = vec![
        ("interrupted", "true".to_string()),
        ("finished_windows", run.windows().count().to_string()),
        ("exponents", floats(exponents)),
    ];
    fields.extend(diagnostics(exponents));
    fields
}

fn diagnostics(exponents: &[f64]) -> [Field; 2] {
    let dimension = kaplan_yorke_dimension(exponents).ok();
    let entropy = kolmogorov_sinai_entropy(exponents).ok();
    [
        ("kaplan_yorke_dimension", optional(dimension)),
        ("kolmogorov_sinai_entropy", optional(entropy)),
    ]
}

fn refusal(refused: &RefusedRun) -> String {
    let error = refused.error();
    object(&[
        ("number", error.number().to_string()),
        ("place", error.place().to_string()),
        ("words", text(&error.to_string())),
        ("finished_windows", refused.finished_windows().to_string()),
        ("steps", refused.steps().to_string()),
    ])
}

fn object(fields: &[Field]) -> String {
    let fields: Vec<String> = fields
        .iter()
        .map(|(name, value)| format!("{}:{value}", text(name)))
        .collect();
    format!("{{{}}}", fields.join(","))
}

fn list(entries: &[String]) -> String {
    format!("[{}]", entries.join(","))
}

fn floats(entries: &[f64]) -> String {
    let entries: Vec<String> = entries.iter().map(|x| float(*x)).collect();
    list(&entries)
}

fn optional(x: Option<f64>) -> String {
    x.map_or_else(|| "null".to_string(), float)
}

fn float(x: f64) -> String {
    if x.is_finite() {
        format!("{x:?}")
    } else {
        "null".to_string()
    }
}

/// The texts here are letters, digits and marks that need no escape.
fn text(words: &str) -> String {
    debug_assert!(!words.contains(['"', '\\', '\n']));
    format!("\"{words}\"")
}
