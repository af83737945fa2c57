//! The object of the library: the memory that the root and the logarithm bring into a program
//! that calls only them.
//!
//! From the two exported functions relocations lead to all code and data that a linker has to
//! keep. Single constants are entries of a section, of which only those count that are pointed at,
//! and of those that are alike one, as the linker has it. Other data is a table, and counts whole. A
//! compiler may make one of a choice in the code.

use crate::constants::NAMES;
use crate::elf::Object;
use model::LOGARITHM_CONSTANTS;
use std::collections::BTreeSet;

/// The exported functions of the root and of the logarithm.
pub const FUNCTIONS: [&str; 2] = ["lyapunov_sqrt", "lyapunov_ln"];

/// The nine constants and seven floats more. The two functions take -1, 1/2, 2 and a NaN beside
/// the nine, and where two floats are loaded at once, one may be paired with a zero.
pub const MOST_BYTES: usize = 8 * (9 + 7);

/// What functions bring into a program: code and data, and the names of the tables in the data.
#[derive(Default)]
pub struct Brought {
    pub code: Vec<Vec<u8>>,
    pub data: Vec<Vec<u8>>,
    pub tables: Vec<String>,
}

impl Brought {
    pub fn code_bytes(&self) -> usize {
        self.code.iter().map(Vec::len).sum()
    }

    pub fn data_bytes(&self) -> usize {
        self.data.iter().map(Vec::len).sum()
    }

    /// How often the bits of `constant` stand in the data, or in the code as an operand.
    fn copies(&self, constant: u64) -> usize {
        let bits = constant.to_le_bytes();
        let places = |bytes: &Vec<u8>| bytes.windows(8).filter(|found| *found == bits).count();
        self.code.iter().chain(&self.data).map(places).sum()
    }

    /// What is wrong with it, for the root and the logarithm together.
    pub fn faults(&self) -> Vec<String> {
        let tables = self.tables.iter();
        let mut faults: Vec<String> = tables.map(|name| format!("a table: {name}")).collect();
        let bytes = self.data_bytes();
        if bytes > MOST_BYTES {
            faults.push(format!("{bytes} bytes of data, above {MOST_BYTES}"));
        }
        for (name, constant) in NAMES.iter().zip(LOGARITHM_CONSTANTS) {
            match self.copies(constant) {
                1 => (),
                copies => faults.push(format!("{name} stands {copies} times in what is linked")),
            }
        }
        faults
    }
}

/// What the functions of these names bring.
pub fn brought(object: &Object, functions: &[&str]) -> Result<Brought, String> {
    let mut brought = Brought::default();
    let mut symbols = Vec::new();
    for function in functions {
        symbols.push(exported(object, function)?);
    }
    let mut seen = BTreeSet::new();
    while let Some(symbol) = symbols.pop() {
        let (index, bytes) = kept(object, symbol)?;
        let section = &object.sections[index];
        if !seen.insert((index, bytes)) {
            continue;
        }
        symbols.extend(&section.named);
        if section.is_code {
            brought.code.push(bytes.to_vec());
            continue;
        }
        brought.data.push(bytes.to_vec());
        if section.entry_size.is_none() {
            brought.tables.push(section.name.clone());
        }
    }
    Ok(brought)
}

fn exported(object: &Object, function: &str) -> Result<usize, String> {
    let found = object
        .symbols
        .iter()
        .position(|symbol| symbol.name == function);
    found.ok_or_else(|| format!("the object has no {function}"))
}

/// What a linker keeps for a symbol: the section, and its entry at the symbol, or all of it.
fn kept(object: &Object, symbol: usize) -> Result<(usize, &[u8]), String> {
    let symbol = object.symbols.get(symbol).ok_or("a symbol of no name")?;
    let index = symbol
        .section
        .ok_or_else(|| format!("{} is not in the object", symbol.name))?;
    let section = &object.sections[index];
    if !section.is_allocated || section.is_writable {
        return Err(format!("{} is not read-only", section.name));
    }
    let Some(entry) = section.entry_size.filter(|_| !symbol.is_section) else {
        return Ok((index, &section.bytes));
    };
    let from = symbol.offset - symbol.offset % entry;
    let bytes = section.bytes.get(from..from.saturating_add(entry));
    let bytes = bytes.ok_or_else(|| format!("{}: no entry at {from}", section.name))?;
    Ok((index, bytes))
}
