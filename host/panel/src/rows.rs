//! The measured windows as comma-separated values.

use crate::measured::{Measured, Window};
use std::fmt::Write as _;

/// A header, then a line a window: of several circuits the name, then end time, local rates, running
/// rates. A rate that is not finite is written as inf, -inf or NaN, and one that a circuit has not,
/// beside others that have more, is empty.
pub fn csv(measured: &[Measured]) -> String {
    let windows = measured.iter().flat_map(Measured::windows);
    let directions = windows.map(|window| window.running.len()).max();
    let directions = directions.unwrap_or(0);
    let named = measured.iter().any(|one| one.circuit.name.is_some());
    let mut text = String::from(if named {
        "circuit,end_time"
    } else {
        "end_time"
    });
    for group in ["local", "running"] {
        for direction in 0..directions {
            let _ = write!(text, ",{group}_{direction}");
        }
    }
    text.push('\n');
    for one in measured {
        let name = one.circuit.name.as_ref();
        let name = name.map_or(String::new(), |name| format!("{name},"));
        for window in one.windows() {
            text.push_str(&name);
            line(&mut text, &window, directions);
        }
    }
    text
}

fn line(text: &mut String, window: &Window, directions: usize) {
    let _ = write!(text, "{:?}", window.end_time);
    for rates in [window.local, window.running] {
        for direction in 0..directions {
            text.push(',');
            if let Some(rate) = rates.get(direction) {
                let _ = write!(text, "{rate:?}");
            }
        }
    }
    text.push('\n');
}
