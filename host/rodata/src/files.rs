//! Which files hold the code of the root and the logarithm: all of the two crates and of the crates
//! that they stand on, whether they call all of those or not.

use std::collections::BTreeSet;
use std::fs;
use std::path::{Path, PathBuf};

/// The crates of the root and of the logarithm.
const CRATES: [&str; 2] = ["sqrt", "ln"];

/// The crates whose code is theirs, and its files.
pub struct Files {
    pub crates: Vec<String>,
    pub files: Vec<PathBuf>,
}

/// Those below `root`, the folder of `crates.txt`. A crate without code is an error.
pub fn find(root: &Path) -> Result<Files, String> {
    let crates = reached(&text_of(&root.join("crates.txt"))?)?;
    let mut files = Vec::new();
    for name in &crates {
        let found = files.len();
        let folder = root.join("crates").join(name).join("src");
        add_files(&folder, &mut files)?;
        if files.len() == found {
            return Err(format!("{}: no code", folder.display()));
        }
    }
    Ok(Files { crates, files })
}

pub fn text_of(file: &Path) -> Result<String, String> {
    fs::read_to_string(file).map_err(|error| format!("{}: {error}", file.display()))
}

/// The two crates and all that they stand on, by the lines of `crates.txt`.
fn reached(listed: &str) -> Result<Vec<String>, String> {
    let mut crates: Vec<String> = CRATES.map(String::from).to_vec();
    let mut at = 0;
    while at < crates.len() {
        let name = crates[at].clone();
        let below = listed
            .lines()
            .map(|line| line.split('#').next().unwrap_or_default())
            .filter_map(|line| line.split_once(':'))
            .find(|(listed, _)| listed.trim() == name)
            .map(|(_, below)| below)
            .ok_or_else(|| format!("crates.txt does not list {name}, whose code is to be read"))?;
        for below in below.split_whitespace() {
            if !crates.iter().any(|name| name == below) {
                crates.push(below.to_string());
            }
        }
        at += 1;
    }
    Ok(crates)
}

/// Adds the files of Rattle in `folder` and below it, in the order of their names.
fn add_files(folder: &Path, files: &mut Vec<PathBuf>) -> Result<(), String> {
    let unread = |error| format!("{}: {error}", folder.display());
    let mut entries = BTreeSet::new();
    for entry in fs::read_dir(folder).map_err(unread)? {
        entries.insert(entry.map_err(unread)?.path());
    }
    for entry in entries {
        if entry.is_dir() {
            add_files(&entry, files)?;
        } else if entry.extension().is_some_and(|ending| ending == "rt") {
            files.push(entry);
        }
    }
    Ok(())
}

#[cfg(test)]
mod tests {
    use super::reached;

    #[test]
    fn the_crates_below() {
        let listed = "# all\nfloats:\nerror: # none\nsqrt: floats\nln: error floats\nother: ln\n";
        assert_eq!(reached(listed).unwrap(), ["sqrt", "ln", "floats", "error"]);
        assert!(reached("sqrt: floats\nln: io\nfloats:\n").is_err());
    }
}
