//! Values of a case's answer: how they are written, read and compared.

use input::Refusal;
use std::fmt::Write as _;

/// It is written as `.` in an answer.
pub use crate::lent::FILLING;

/// How every NaN is written in an answer.
const NAN_BITS: u64 = 0x7ff8_0000_0000_0000;

/// Equal bits, or two NaNs.
pub fn same(left: f64, right: f64) -> bool {
    left.to_bits() == right.to_bits() || (left.is_nan() && right.is_nan())
}

/// Two lists of the same length with the same entries.
pub fn same_list(left: &[f64], right: &[f64]) -> bool {
    left.len() == right.len() && left.iter().zip(right).all(|(a, b)| same(*a, *b))
}

#[derive(Clone, Debug, PartialEq)]
pub enum Value {
    Count(u64),
    Float(f64),
    /// No value: the function left its output alone.
    Nothing,
    Floats(Vec<f64>),
    /// The first entries of a list, where a reference says nothing of the rest.
    Leading(Vec<f64>),
    Counts(Vec<u64>),
    Words(Vec<u64>),
    Text(String),
}

/// How a value of an answer is read.
#[derive(Clone, Copy, Debug)]
pub enum Type {
    Count,
    /// A count that is told only once a run is over.
    LateCount,
    Place,
    Float,
    Floats,
    Counts,
    Words,
    Text,
}

/// The type of each field that an answer may have.
const TYPES: [(Type, &[&str]); 8] = [
    (Type::Count, &["num", "name", "begun"]),
    (Type::LateCount, &["finished", "made"]),
    (Type::Place, &["place"]),
    (Type::Float, &["y", "ftime", "mtime", "dim", "ent"]),
    (
        Type::Floats,
        &[
            "values", "dirs", "numbers", "state", "rows", "exps", "final",
        ],
    ),
    (Type::Counts, &["faint"]),
    (Type::Words, &["states", "outs"]),
    (Type::Text, &["out", "stage"]),
];

/// The type of the field `name`.
pub fn type_of(name: &str) -> Result<Type, String> {
    let known = TYPES.iter().find(|(_, names)| names.contains(&name));
    known
        .map(|(as_type, _)| *as_type)
        .ok_or_else(|| format!("unknown field {name}"))
}

impl Value {
    /// Whether `actual` is what this reference value asks for.
    pub fn admits(&self, actual: &Value) -> bool {
        match (self, actual) {
            (Value::Float(a), Value::Float(b)) => same(*a, *b),
            (Value::Floats(a), Value::Floats(b)) => same_list(a, b),
            (Value::Leading(a), Value::Floats(b)) => {
                b.get(..a.len()).is_some_and(|b| same_list(a, b))
            }
            _ => self == actual,
        }
    }

    /// A list of floats without its first entries.
    pub fn without_first(self, entries: usize) -> Value {
        let rest = |values: Vec<f64>| values.into_iter().skip(entries).collect();
        match self {
            Value::Floats(values) => Value::Floats(rest(values)),
            Value::Leading(values) => Value::Leading(rest(values)),
            other => other,
        }
    }

    pub fn read(text: &str, as_type: Type) -> Result<Value, String> {
        Ok(match as_type {
            Type::LateCount | Type::Float if text == "-" => Value::Nothing,
            Type::Count | Type::LateCount => Value::Count(read_count(text)?),
            Type::Place => Value::Count(read_place(text)?),
            Type::Float => Value::Float(read_float(text)?),
            Type::Floats => Value::Floats(read_list(text, ',', read_entry)?),
            Type::Counts => Value::Counts(read_list(text, ',', read_count)?),
            Type::Words => Value::Words(read_list(text, ',', read_word)?),
            Type::Text => Value::Text(text.to_string()),
        })
    }

    pub fn written(&self) -> String {
        match self {
            Value::Count(n) => n.to_string(),
            Value::Float(x) => entry(x),
            Value::Nothing => "-".to_string(),
            Value::Floats(values) | Value::Leading(values) => list(values, ",", entry),
            Value::Counts(counts) => list(counts, ",", u64::to_string),
            Value::Words(words) => list(words, ",", word),
            Value::Text(text) => text.clone(),
        }
    }
}

/// The bits of a float that is handed in, NaN included.
pub fn bits(x: &f64) -> String {
    word(&x.to_bits())
}

pub fn word(bits: &u64) -> String {
    format!("{bits:016x}")
}

/// A float of an answer.
fn entry(x: &f64) -> String {
    if x.to_bits() == FILLING.to_bits() {
        ".".to_string()
    } else if x.is_nan() {
        word(&NAN_BITS)
    } else {
        bits(x)
    }
}

/// A list, `-` where it is empty.
pub fn list<T>(items: &[T], separator: &str, write: impl Fn(&T) -> String) -> String {
    if items.is_empty() {
        return "-".to_string();
    }
    let mut text = String::new();
    for (i, item) in items.iter().enumerate() {
        let before = if i == 0 { "" } else { separator };
        let _ = write!(text, "{before}{}", write(item));
    }
    text
}

pub fn read_count(text: &str) -> Result<u64, String> {
    text.parse().map_err(|_| format!("{text} is no count"))
}

/// A list from before document 02's request b may have several places of a 5, parted by `/`: the
/// first is the place, and the rest is passed over.
fn read_place(text: &str) -> Result<u64, String> {
    read_count(text.split('/').next().unwrap_or(text))
}

pub fn read_word(text: &str) -> Result<u64, String> {
    let is_digit = |c: u8| c.is_ascii_digit() || (b'a'..=b'f').contains(&c);
    if text.len() != 16 || !text.bytes().all(is_digit) {
        return Err(format!("{text} is not 16 lower-case hexadecimal digits"));
    }
    u64::from_str_radix(text, 16).map_err(|error| error.to_string())
}

pub fn read_float(text: &str) -> Result<f64, String> {
    read_word(text).map(f64::from_bits)
}

fn read_entry(text: &str) -> Result<f64, String> {
    if text == "." {
        Ok(FILLING)
    } else {
        read_float(text)
    }
}

pub fn read_list<T>(
    text: &str,
    separator: char,
    read: impl Fn(&str) -> Result<T, String>,
) -> Result<Vec<T>, String> {
    if text == "-" {
        return Ok(Vec::new());
    }
    text.split(separator).map(read).collect()
}

/// The named values that come back, in the order of FORMAT.md. A reference may leave out what it
/// says nothing about.
#[derive(Clone, Debug, Default, PartialEq)]
pub struct Answer {
    fields: Vec<(&'static str, Value)>,
}

impl Answer {
    /// An answer that begins with a refusal's number, 0 for none, and its place.
    pub fn refusal(refusal: Refusal) -> Self {
        Self::default()
            .with("num", Value::Count(refusal.number))
            .with("place", Value::Count(refusal.place))
    }

    /// The answer of what was not refused, as far as it begins.
    pub fn done() -> Self {
        Self::refusal(Refusal::NONE)
    }

    pub fn with(mut self, name: &'static str, value: Value) -> Self {
        self.fields.push((name, value));
        self
    }

    /// The same with the fields of `other` after its own.
    pub fn and(mut self, other: Self) -> Self {
        self.fields.extend(other.fields);
        self
    }

    /// The fields with these names alone.
    pub fn only(mut self, names: &[&str]) -> Self {
        self.fields.retain(|(name, _)| names.contains(name));
        self
    }

    /// The same with another value of the field `name`.
    pub fn map(mut self, name: &str, change: impl Fn(Value) -> Value) -> Self {
        for (field, value) in &mut self.fields {
            if *field == name {
                *value = change(value.clone());
            }
        }
        self
    }

    pub fn get(&self, name: &str) -> Option<&Value> {
        let field = self.fields.iter().find(|(field, _)| *field == name)?;
        Some(&field.1)
    }

    /// The refusal's number, of an answer that has one.
    pub fn number(&self) -> u64 {
        self.count("num")
    }

    /// The count `name`, 0 where the answer has none.
    pub fn count(&self, name: &str) -> u64 {
        match self.get(name) {
            Some(Value::Count(count)) => *count,
            _ => 0,
        }
    }

    /// Whether the field `name` is this text.
    pub fn is(&self, name: &str, text: &str) -> bool {
        matches!(self.get(name), Some(Value::Text(found)) if found == text)
    }

    /// Whether a direction was faint.
    pub fn is_faint(&self) -> bool {
        let any = |counts: &[u64]| counts.iter().any(|count| *count > 0);
        matches!(self.get("faint"), Some(Value::Counts(counts)) if any(counts))
    }

    /// The fields, parted by spaces: nothing where there are none.
    pub fn written(&self) -> String {
        let field = |(name, value): &(&str, Value)| format!("{name}={}", value.written());
        let fields: Vec<String> = self.fields.iter().map(field).collect();
        fields.join(" ")
    }

    /// The first field of this reference that `actual` does not match, with both values.
    pub fn difference(&self, actual: &Answer) -> Option<String> {
        for (name, expected) in &self.fields {
            let found = actual.get(name);
            if !found.is_some_and(|value| expected.admits(value)) {
                let found = found.map_or("no such field".to_string(), Value::written);
                return Some(format!(
                    "{name} is {found}, expected {}",
                    expected.written()
                ));
            }
        }
        None
    }
}

#[cfg(test)]
mod tests {
    use super::*;

    #[test]
    fn floats_are_compared_by_bits() {
        assert!(same(f64::NAN, -f64::NAN));
        assert!(!same(0.0, -0.0));
        assert!(!same(1.0, f64::NAN));
        assert!(!same_list(&[1.0], &[1.0, 2.0]));
    }

    #[test]
    fn values_are_read_as_they_are_written() {
        let nan = Value::Float(f64::from_bits(0xfff0_0000_0000_0001));
        assert_eq!(nan.written(), "7ff8000000000000");
        let floats = Value::Floats(vec![1.0, FILLING]);
        assert_eq!(floats.written(), "3ff0000000000000,.");
        assert_eq!(Value::read("3ff0000000000000,.", Type::Floats), Ok(floats));
        assert_eq!(Value::read("-", Type::Floats), Ok(Value::Floats(vec![])));
        assert_eq!(Value::read("-", Type::Float), Ok(Value::Nothing));
        assert_eq!(Value::read("-", Type::LateCount), Ok(Value::Nothing));
        assert_eq!(Value::read("7", Type::LateCount), Ok(Value::Count(7)));
        assert!(Value::read("-", Type::Count).is_err());
    }

    #[test]
    fn of_several_places_the_first_is_read() {
        for (text, place) in [("2", 2), ("0/2", 0), ("1/2", 1), ("2/0/1", 2)] {
            assert_eq!(Value::read(text, Type::Place), Ok(Value::Count(place)));
        }
        for text in ["", "-", "/1", "x/1"] {
            assert!(Value::read(text, Type::Place).is_err(), "{text}");
        }
        assert!(Value::read("0/2", Type::Count).is_err());
    }

    #[test]
    fn malformed_values_are_refused() {
        for text in ["3ff", "3FF0000000000000", "+ff0000000000000", ""] {
            assert!(read_float(text).is_err(), "{text}");
        }
        assert!(read_count("-1").is_err());
        assert!(read_list("1,,2", ',', read_count).is_err());
    }

    #[test]
    fn references_say_what_they_ask() {
        assert!(Value::Count(2).admits(&Value::Count(2)));
        assert!(!Value::Count(2).admits(&Value::Count(1)));
        let leading = Value::Leading(vec![1.0]);
        assert!(leading.admits(&Value::Floats(vec![1.0, 5.0])));
        assert!(!leading.admits(&Value::Floats(vec![])));
        assert!(!Value::Nothing.admits(&Value::Float(0.0)));
    }

    #[test]
    fn answers_are_put_together_and_taken_apart() {
        let (one, other) = (Answer::done(), Answer::default().with("y", Value::Nothing));
        let both = one.clone().and(other.clone());
        assert_eq!(both.written(), "num=0 place=0 y=-");
        assert_eq!(both.clone().only(&["num", "place"]), one);
        assert_eq!(both.only(&["y", "dim"]), other);
        let stage = Answer::default().with("stage", Value::Text("over".to_string()));
        assert!(stage.is("stage", "over") && !stage.is("stage", "unfit"));
        assert!(!stage.is("out", "over"));
    }

    #[test]
    fn the_first_difference_is_named() {
        let expected = Answer::refusal(Refusal::at(14, 1)).with("dim", Value::Float(2.5));
        let actual = Answer::refusal(Refusal::at(14, 2)).with("dim", Value::Float(2.0));
        let difference = expected.difference(&actual);
        assert_eq!(difference.as_deref(), Some("place is 2, expected 1"));
        assert_eq!(expected.difference(&expected), None);
        assert!(expected
            .difference(&Answer::refusal(Refusal::at(14, 1)))
            .is_some());
    }
}
