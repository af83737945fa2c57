//! The tokens of a Rattle file, without its comments.

/// What a token is.
#[derive(Debug, Clone, PartialEq)]
pub enum Kind {
    /// A name or a keyword.
    Word(String),
    /// A number as it is written.
    Number(String),
    /// A byte string, or another quoted text.
    Text(String),
    /// A byte between quotes.
    Byte,
    /// Any other character.
    Sign(char),
}

/// A token and its line, counted from 1.
#[derive(Debug, Clone, PartialEq)]
pub struct Token {
    pub line: usize,
    pub kind: Kind,
}

impl Token {
    pub fn is_sign(&self, sign: char) -> bool {
        self.kind == Kind::Sign(sign)
    }

    /// The name or keyword that the token is.
    pub fn word(&self) -> Option<&str> {
        match &self.kind {
            Kind::Word(word) => Some(word),
            _ => None,
        }
    }
}

/// The tokens of `text`.
pub fn tokens(text: &str) -> Vec<Token> {
    let mut reader = Reader {
        text: text.chars().collect(),
        at: 0,
        line: 1,
    };
    let mut tokens = Vec::new();
    while reader.skip_blank() {
        let line = reader.line;
        let kind = reader.token();
        tokens.push(Token { line, kind });
    }
    tokens
}

/// The bits of a number as it is written: of a whole number its value, of a float its pattern.
/// `None` where it is none, or a whole number above 64 bits.
pub fn bits(number: &str) -> Option<u64> {
    let digits = number.replace('_', "");
    for (prefix, radix) in [("0x", 16), ("0o", 8), ("0b", 2)] {
        if let Some(digits) = digits.strip_prefix(prefix) {
            return u64::from_str_radix(without_suffix(digits), radix).ok();
        }
    }
    let float = digits
        .strip_suffix("f64")
        .or_else(|| digits.strip_suffix("f32"));
    if let Some(float) = float {
        return float.parse().ok().map(f64::to_bits);
    }
    if digits.contains(['.', 'e', 'E']) && !digits.ends_with("size") {
        return digits.parse().ok().map(f64::to_bits);
    }
    without_suffix(&digits).parse().ok()
}

/// A whole number without its type.
fn without_suffix(digits: &str) -> &str {
    // No digit of any base is a u or an i.
    digits.split(['u', 'i']).next().unwrap_or(digits)
}

fn in_word(c: char) -> bool {
    c.is_alphanumeric() || c == '_'
}

struct Reader {
    text: Vec<char>,
    at: usize,
    line: usize,
}

impl Reader {
    fn peek(&self, ahead: usize) -> Option<char> {
        self.text.get(self.at + ahead).copied()
    }

    fn next(&mut self) -> Option<char> {
        let c = self.peek(0)?;
        self.at += 1;
        self.line += usize::from(c == '\n');
        Some(c)
    }

    fn starts(&self, text: &str) -> bool {
        self.text[self.at..]
            .iter()
            .copied()
            .take(text.len())
            .eq(text.chars())
    }

    /// Passes over space and comments; whether anything is left.
    fn skip_blank(&mut self) -> bool {
        loop {
            if self.starts("//") {
                while self.peek(0).is_some_and(|c| c != '\n') {
                    self.next();
                }
            } else if self.starts("/*") {
                self.skip_comment();
            } else if self.peek(0).is_some_and(char::is_whitespace) {
                self.next();
            } else {
                return self.peek(0).is_some();
            }
        }
    }

    /// Passes over a comment between `/*` and `*/`, which may hold others.
    fn skip_comment(&mut self) {
        let mut depth = 0;
        loop {
            if self.starts("/*") {
                depth += 1;
                self.at += 2;
            } else if self.starts("*/") {
                depth -= 1;
                self.at += 2;
            } else if self.next().is_none() {
                return;
            }
            if depth == 0 {
                return;
            }
        }
    }

    fn token(&mut self) -> Kind {
        let first = self.peek(0).expect("something is left");
        if first.is_ascii_digit() {
            return Kind::Number(self.number());
        }
        let is_byte = self.peek(2) == Some('\\') || self.peek(3) == Some('\'');
        if self.starts("b'") && is_byte {
            self.at += 2;
            self.quoted("'");
            return Kind::Byte;
        }
        for opening in ["b\"", "\""] {
            if self.starts(opening) {
                self.at += opening.len();
                return Kind::Text(self.quoted("\""));
            }
        }
        if self.starts("br\"") || self.starts("br#") {
            self.at += 2;
            return Kind::Text(self.raw_quoted());
        }
        if !in_word(first) {
            self.next();
            return Kind::Sign(first);
        }
        Kind::Word(self.take_word())
    }

    fn take_word(&mut self) -> String {
        let from = self.at;
        while self.peek(0).is_some_and(in_word) {
            self.next();
        }
        self.text[from..self.at].iter().collect()
    }

    /// A number with its type: whole, or with a fraction, a power of ten, or both.
    fn number(&mut self) -> String {
        let mut number = self.take_word();
        let based = ["0x", "0o", "0b"]
            .iter()
            .any(|base| number.starts_with(base));
        let fraction = |c: char| c != '.' && !c.is_alphabetic() && c != '_';
        if !based && self.peek(0) == Some('.') && self.peek(1).is_none_or(fraction) {
            self.next();
            number.push('.');
            number.push_str(&self.take_word());
        }
        let signed = matches!(self.peek(0), Some('+' | '-'));
        if !based && signed && number.ends_with(['e', 'E']) {
            number.extend(self.next());
            number.push_str(&self.take_word());
        }
        number
    }

    /// The rest of a quoted text, up to its closing sign.
    fn quoted(&mut self, closing: &str) -> String {
        let mut text = String::new();
        while !self.starts(closing) {
            let escaped = self.starts("\\");
            let Some(c) = self.next() else { return text };
            text.push(c);
            if escaped {
                text.extend(self.next());
            }
        }
        self.at += closing.len();
        text
    }

    /// A text without escapes: a quote, or as many `#` as follow it at its end.
    fn raw_quoted(&mut self) -> String {
        let mut closing = String::from("\"");
        while self.peek(0) == Some('#') {
            self.next();
            closing.push('#');
        }
        self.next();
        let mut text = String::new();
        while !self.starts(&closing) {
            let Some(c) = self.next() else { return text };
            text.push(c);
        }
        self.at += closing.len();
        text
    }
}

#[cfg(test)]
mod tests {
    use super::*;

    fn written(text: &str) -> Vec<Kind> {
        tokens(text).into_iter().map(|token| token.kind).collect()
    }

    #[test]
    fn one_number_in_every_spelling() {
        // L1 of document 01.
        for spelling in [
            "0x3fe5555555555593",
            "0x3FE5_5555_5555_5593",
            "0x3fe5555555555593_u64",
            "0o377452525252525252623",
            "4604180019048437139",
            "4_604_180_019_048_437_139u64",
            "0b11111111100101010101010101010101010101010101010101010110010011",
            "0.6666666666666735",
            "6.666666666666735130e-01",
            "66_666.66666666735130E-5_f64",
        ] {
            assert_eq!(bits(spelling), Some(0x3fe5555555555593), "{spelling}");
            assert_eq!(written(spelling), [Kind::Number(spelling.to_string())]);
        }
    }

    #[test]
    fn numbers_end_where_they_do() {
        let range = written("0..16");
        assert_eq!(range[0], Kind::Number("0".to_string()));
        assert_eq!(range[3], Kind::Number("16".to_string()));
        assert_eq!(written("1.+2.5e-3-x.0").len(), 7);
        assert_eq!(bits("1."), Some(1.0_f64.to_bits()));
        assert_eq!(bits("15f64"), Some(15.0_f64.to_bits()));
        assert_eq!(bits("1_5usize"), Some(15));
        assert_eq!(bits("0xffff_ffff_ffff_ffff_f"), None);
    }

    #[test]
    fn comments_and_texts() {
        let text = "a // 0x1 [\n/* [ /* 2 */ 3 */ b b\"[\\\"\" c br#\"\"[\"# b'[' 'd";
        let word = |name: &str| Kind::Word(name.to_string());
        let quoted = |text: &str| Kind::Text(text.to_string());
        assert_eq!(
            written(text),
            [
                word("a"),
                word("b"),
                quoted("[\\\""),
                word("c"),
                quoted("\"["),
                Kind::Byte,
                Kind::Sign('\''),
                word("d"),
            ]
        );
        assert_eq!(tokens(text)[1].line, 2);
        assert_eq!(written("b'\\'' b'\\x5b' b' [").len(), 5);
    }
}
