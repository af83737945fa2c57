//! The program `spectrum`: bytes of standard input and what is printed.

use super::Case;
use crate::line::Fields;
use crate::values::{Answer, Value};
use oracle::Source;
use std::fmt::Write as _;
use std::io::Write as _;
use std::path::Path;
use std::process::{Command, Stdio};

#[derive(Clone, Debug)]
pub struct Program(pub Vec<u8>);

impl Case for Program {
    const KIND: &'static str = "prog";
    const ANSWER: &'static [&'static str] = &["out"];

    fn read(fields: &mut Fields) -> Result<Self, String> {
        let text = fields.take("bytes")?;
        if text == "-" {
            return Ok(Self(vec![]));
        }
        let digits = text.as_bytes();
        let byte = |pair: &[u8]| {
            let pair = std::str::from_utf8(pair).ok()?;
            u8::from_str_radix(pair, 16).ok()
        };
        let bytes: Option<Vec<u8>> = digits.chunks(2).map(byte).collect();
        match bytes {
            Some(bytes) if digits.len() % 2 == 0 => Ok(Self(bytes)),
            _ => Err("bytes are not pairs of hexadecimal digits".to_string()),
        }
    }

    fn written(&self) -> String {
        if self.0.is_empty() {
            return "bytes=-".to_string();
        }
        let mut text = "bytes=".to_string();
        for byte in &self.0 {
            let _ = write!(text, "{byte:02x}");
        }
        text
    }

    fn model(&self) -> Answer {
        answer(&model::spectrum_program(&self.0))
    }

    fn source(&self, _: &dyn Source) -> Option<Answer> {
        None
    }
}

impl Program {
    /// What the program at `path` prints: it is no function of the library.
    pub fn printed(&self, path: &Path) -> Result<Answer, String> {
        let failed = |error: std::io::Error| format!("{}: {error}", path.display());
        let mut child = Command::new(path)
            .stdin(Stdio::piped())
            .stdout(Stdio::piped())
            .spawn()
            .map_err(failed)?;
        let mut input = child.stdin.take().ok_or("no standard input")?;
        // A program that refuses an input by its length may leave the rest unread.
        let _ = input.write_all(&self.0);
        drop(input);
        let output = child.wait_with_output().map_err(failed)?;
        if !output.status.success() {
            return Err(format!("{}: {}", path.display(), output.status));
        }
        Ok(answer(&String::from_utf8_lossy(&output.stdout)))
    }
}

/// The lines, parted by `|`, with `_` for a space. An answer that does not end with a newline is
/// marked.
fn answer(printed: &str) -> Answer {
    let text = match printed.strip_suffix('\n') {
        Some(lines) => lines.replace('\n', "|").replace(' ', "_"),
        None => format!("{printed}(no newline)"),
    };
    Answer::default().with("out", Value::Text(text))
}
