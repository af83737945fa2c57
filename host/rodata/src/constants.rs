//! Where each of the logarithm's nine constants stands, by its bits, however it is spelled. In a
//! contract it counts too, since a promise goes by the definition.

use crate::tokens::{bits, Kind, Token};
use model::LOGARITHM_CONSTANTS;

/// What document 01 calls the constants, in the model's order.
pub const NAMES: [&str; 9] = ["hi", "lo", "L1", "L2", "L3", "L4", "L5", "L6", "L7"];

/// The places of each, and of numbers that can't be read.
#[derive(Default)]
pub struct Places {
    of_constants: [Vec<String>; 9],
    unread: Vec<String>,
}

impl Places {
    /// Adds those in a file.
    pub fn add(&mut self, file: &str, tokens: &[Token]) {
        for token in tokens {
            if let Kind::Number(number) = &token.kind {
                let place = format!("{file}:{} as {number}", token.line);
                match bits(number) {
                    Some(bits) => self.add_bits(bits, place),
                    None => self.unread.push(place),
                }
            }
        }
    }

    fn add_bits(&mut self, bits: u64, place: String) {
        let found = LOGARITHM_CONSTANTS.iter().position(|c| *c == bits);
        if let Some(found) = found {
            self.of_constants[found].push(place);
        }
    }

    /// The constants that do not stand once, and the numbers that can't be read.
    pub fn faults(self) -> Vec<String> {
        let unread = self.unread.iter();
        let mut faults: Vec<String> = unread.map(|place| format!("no number: {place}")).collect();
        for (name, places) in NAMES.iter().zip(self.of_constants) {
            match places.as_slice() {
                [_] => (),
                [] => faults.push(format!("{name} stands nowhere")),
                more => faults.push(format!("{name} stands more than once: {}", more.join(", "))),
            }
        }
        faults
    }
}
