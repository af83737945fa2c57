//! The code of the root and the logarithm: no array in it, and each of the logarithm's nine
//! constants once.

use crate::arrays::arrays;
use crate::constants::Places;
use crate::files::{find, text_of};
use crate::tokens::tokens;
use std::path::Path;

/// What was read, and what is wrong with it.
pub struct Source {
    pub crates: Vec<String>,
    pub files: usize,
    pub faults: Vec<String>,
}

/// Reads the code below `root`, the folder of `crates.txt`.
pub fn read(root: &Path) -> Result<Source, String> {
    let found = find(root)?;
    let mut faults = Vec::new();
    let mut places = Places::default();
    for file in &found.files {
        let tokens = tokens(&text_of(file)?);
        let shown = file.strip_prefix(root).unwrap_or(file).display();
        places.add(&shown.to_string(), &tokens);
        let arrays = arrays(&tokens).into_iter();
        faults.extend(arrays.map(|(line, what)| format!("{shown}:{line}: {what}")));
    }
    faults.extend(places.faults());
    Ok(Source {
        crates: found.crates,
        files: found.files.len(),
        faults,
    })
}
