//! A circuit that is run, and the file of several.

use crate::choice::Choice;
use field_lyapunov::{BenettinConfig, LyapunovError, Rk4};
use lyapunov_sys::DISPATCHER_RUNS as MOST;
use std::path::Path;

/// A system with its start and the settings of its run.
pub struct Circuit {
    /// Of a circuit of several.
    pub name: Option<String>,
    pub choice: Choice,
    pub stepper: Rk4,
    pub state: Vec<f64>,
    pub time: f64,
    /// Settings that the library refuses are told as a refused run is.
    pub config: Result<BenettinConfig, LyapunovError>,
}

/// The most characters of a name, so that it fits into tables and drawings.
const LONGEST: usize = 24;

/// The circuits of a file, of which `read` makes each from its name and the words after it.
pub fn listed(
    file: &Path,
    read: impl Fn(&str, &mut dyn Iterator<Item = &str>) -> Result<Circuit, String>,
) -> Result<Vec<Circuit>, String> {
    let path = file.display();
    let text = std::fs::read_to_string(file).map_err(|error| format!("{path}: {error}"))?;
    let mut circuits: Vec<Circuit> = Vec::new();
    for (line, number) in text.lines().zip(1..) {
        let mut words = line.split_whitespace();
        let Some(name) = words.next().filter(|word| !word.starts_with('#')) else {
            continue;
        };
        let circuit = fits(name, &circuits).and_then(|()| read(name, &mut words));
        circuits.push(circuit.map_err(|message| format!("{path}, line {number}: {message}"))?);
    }
    if circuits.is_empty() {
        return Err(format!("{path}: there is no circuit in it"));
    }
    Ok(circuits)
}

/// Whether a circuit with this name may follow these.
fn fits(name: &str, circuits: &[Circuit]) -> Result<(), String> {
    let plain = |letter: char| letter.is_alphanumeric() || ['-', '_', '.'].contains(&letter);
    if name.starts_with('-') {
        Err(format!("a line begins with a name, and {name} is none"))
    } else if !name.chars().all(plain) || name.chars().count() > LONGEST {
        Err(format!(
            "the name {name} is not of at most {LONGEST} letters, digits and the marks - _ ."
        ))
    } else if circuits
        .iter()
        .any(|other| other.name.as_deref() == Some(name))
    {
        Err(format!("the name {name} is there twice"))
    } else if circuits.len() == MOST {
        Err(format!(
            "{name} is one too many: at most {MOST} circuits run side by side"
        ))
    } else {
        Ok(())
    }
}
