//! The must-fail edits of the logarithm's constants: for each of the nine, one that changes its
//! last hexadecimal digit and nothing else. `rt ci` has the prover refuse them.

use crate::constants::NAMES;
use crate::tokens::{bits, tokens, Kind};
use model::LOGARITHM_CONSTANTS;
use std::fs;
use std::path::Path;

/// The constants that no edit changes in their last digit.
pub fn missing(root: &Path) -> Result<Vec<&'static str>, String> {
    let folder = root.join("crates/ln/must-fail");
    let unread = |error| format!("{}: {error}", folder.display());
    let mut edited = [false; 9];
    for entry in fs::read_dir(&folder).map_err(unread)? {
        let file = entry.map_err(unread)?.path();
        let edit = fs::read_to_string(&file).map_err(|e| format!("{}: {e}", file.display()))?;
        let Some((old, new)) = changed_number(&edit) else {
            continue;
        };
        for (constant, edited) in LOGARITHM_CONSTANTS.iter().zip(&mut edited) {
            *edited |= old == *constant && new != old && new / 16 == old / 16;
        }
    }
    let missing = NAMES.iter().zip(edited).filter(|(_, edited)| !edited);
    Ok(missing.map(|(name, _)| *name).collect())
}

/// The bits before and after of the one number that an edit of the code changes, where it changes
/// nothing else.
fn changed_number(edit: &str) -> Option<(u64, u64)> {
    let value = |key: &str| {
        let mut values = edit.lines().filter_map(|line| line.strip_prefix(key));
        values.next().filter(|_| values.next().is_none())
    };
    value("file: ").filter(|file| file.starts_with("src/"))?;
    let (old, new) = (tokens(value("old: ")?), tokens(value("new: ")?));
    if old.len() != new.len() {
        return None;
    }
    let mut changes = old.iter().zip(&new).filter(|(old, new)| old != new);
    match (changes.next()?, changes.next()) {
        ((old, new), None) => match (&old.kind, &new.kind) {
            (Kind::Number(old), Kind::Number(new)) => Some((bits(old)?, bits(new)?)),
            _ => None,
        },
        _ => None,
    }
}

#[cfg(test)]
mod tests {
    use super::changed_number;

    #[test]
    fn one_number_and_nothing_else() {
        let edit = |file: &str, old: &str, new: &str| {
            changed_number(&format!("# words\nfile: {file}\nold: {old}\nnew: {new}\n"))
        };
        assert_eq!(edit("src/lib.rt", "f(0x1e)", "f(0x1f)"), Some((0x1e, 0x1f)));
        assert_eq!(edit("specs/A.antt", "f(0x1e)", "f(0x1f)"), None);
        assert_eq!(edit("src/lib.rt", "f(0x1e, 1)", "f(0x1f, 2)"), None);
        assert_eq!(edit("src/lib.rt", "f(a)", "f(b)"), None);
        assert_eq!(edit("src/lib.rt", "f(1)", "f(1)"), None);
        assert_eq!(edit("src/lib.rt", "f(1)", "f(2) + 1"), None);
    }
}
