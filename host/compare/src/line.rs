//! One line of a list of cases: `KIND id=ID name=value ... -> name=value ... # remark`. There may be
//! no fields after the id, and none after the arrow.

use crate::values::{read_count, read_float, read_list, read_word, type_of, Answer, Value};

pub struct Line<'a> {
    pub kind: &'a str,
    pub id: &'a str,
    pub input: Fields<'a>,
    pub answer: Fields<'a>,
}

impl<'a> Line<'a> {
    pub fn read(text: &'a str) -> Result<Self, String> {
        // No value holds a space, so the remark begins at the first " #".
        let text = text.split_once(" #").map_or(text, |(case, _)| case);
        let arrow = text.split_once(" -> ");
        let (left, right) = arrow
            .or_else(|| Some((text.strip_suffix(" ->")?, "")))
            .ok_or("no ' -> '")?;
        let (kind, rest) = left.split_once(' ').ok_or("no kind")?;
        let mut input = Fields::read(rest)?;
        let id = input.take("id")?;
        Ok(Self {
            kind,
            id,
            input,
            answer: Fields::read(right)?,
        })
    }
}

/// Named values that are taken one by one.
#[derive(Debug, Default)]
pub struct Fields<'a> {
    fields: Vec<(&'a str, &'a str)>,
}

impl<'a> Fields<'a> {
    fn read(text: &'a str) -> Result<Self, String> {
        let mut fields: Vec<(&str, &str)> = Vec::new();
        let tokens = if text.is_empty() {
            None
        } else {
            Some(text.split(' '))
        };
        for token in tokens.into_iter().flatten() {
            let (name, value) = token
                .split_once('=')
                .ok_or_else(|| format!("{token} is no name=value"))?;
            if fields.iter().any(|(earlier, _)| *earlier == name) {
                return Err(format!("{name} stands twice"));
            }
            fields.push((name, value));
        }
        Ok(Self { fields })
    }

    pub fn take(&mut self, name: &str) -> Result<&'a str, String> {
        let found = self.fields.iter().position(|(field, _)| *field == name);
        let at = found.ok_or_else(|| format!("no {name}"))?;
        Ok(self.fields.remove(at).1)
    }

    pub fn count(&mut self, name: &str) -> Result<u64, String> {
        read_count(self.take(name)?)
    }

    /// A count that may be left out.
    pub fn given_count(&mut self, name: &str) -> Result<Option<u64>, String> {
        let given = self.take(name).ok();
        given.map(read_count).transpose()
    }

    pub fn size(&mut self, name: &str) -> Result<usize, String> {
        Ok(self.count(name)? as usize)
    }

    pub fn word(&mut self, name: &str) -> Result<u64, String> {
        read_word(self.take(name)?)
    }

    pub fn float(&mut self, name: &str) -> Result<f64, String> {
        read_float(self.take(name)?)
    }

    pub fn floats(&mut self, name: &str) -> Result<Vec<f64>, String> {
        read_list(self.take(name)?, ',', read_float)
    }

    /// Nothing may be left that nobody asked for.
    pub fn finish(self) -> Result<(), String> {
        match self.fields.first() {
            None => Ok(()),
            Some((name, _)) => Err(format!("unknown field {name}")),
        }
    }

    /// The answer whose fields have these names. A field `by`, which says where the answer comes
    /// from, may stand beside them.
    pub fn answer(mut self, names: &[&'static str]) -> Result<Answer, String> {
        let mut answer = Answer::default();
        let _ = self.take("by");
        for name in names {
            let value = Value::read(self.take(name)?, type_of(name)?)?;
            answer = answer.with(name, value);
        }
        self.finish()?;
        Ok(answer)
    }
}

#[cfg(test)]
mod tests {
    use super::*;

    #[test]
    fn a_line_is_taken_apart() {
        let text =
            "log id=A1 x=3ff0000000000000 -> num=0 place=0 y=0000000000000000 by=model # a -> b";
        let mut line = Line::read(text).unwrap();
        assert_eq!((line.kind, line.id), ("log", "A1"));
        assert_eq!(line.input.float("x"), Ok(1.0));
        assert_eq!(line.input.finish(), Ok(()));
        let answer = line.answer.answer(&["num", "place", "y"]).unwrap();
        assert_eq!(answer, Answer::done().with("y", Value::Float(0.0)));
    }

    #[test]
    fn a_line_may_have_no_answer() {
        for text in ["empty id=A ->", "empty id=A -> # remark"] {
            let line = Line::read(text).unwrap();
            assert_eq!((line.kind, line.id), ("empty", "A"));
            assert_eq!(line.input.finish(), Ok(()));
            assert_eq!(line.answer.answer(&[]), Ok(Answer::default()));
        }
    }

    #[test]
    fn a_count_may_be_left_out() {
        let mut line = Line::read("run id=A warmup=2 -> num=0").unwrap();
        assert_eq!(line.input.given_count("warmup"), Ok(Some(2)));
        assert_eq!(line.input.given_count("warmup"), Ok(None));
        let mut line = Line::read("run id=A warmup=-2 -> num=0").unwrap();
        assert!(line.input.given_count("warmup").is_err());
    }

    #[test]
    fn malformed_lines_are_refused() {
        for text in [
            "root id=A x=0000000000000000",
            "root id=A x=0000000000000000 ->y=0000000000000000",
            "root -> y=0000000000000000",
            "root x=0000000000000000 -> y=0000000000000000",
            "root id=A x -> y=0000000000000000",
            "root id=A x=1 x=1 -> y=0000000000000000",
        ] {
            assert!(Line::read(text).is_err(), "{text}");
        }
    }

    #[test]
    fn fields_that_nobody_asked_for_are_refused() {
        let line = Line::read("root id=A x=0 -> y=0000000000000000 z=1").unwrap();
        assert_eq!(line.input.finish(), Err("unknown field x".to_string()));
        let answer = line.answer.answer(&["y"]);
        assert_eq!(answer, Err("unknown field z".to_string()));
    }
}
