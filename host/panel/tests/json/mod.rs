//! A small reader of JSON, strict enough to notice what a program would stumble over.

#[derive(Debug, PartialEq)]
pub enum Value {
    Null,
    True,
    Number(f64),
    Text(String),
    List(Vec<Value>),
    Object(Vec<(String, Value)>),
}

impl Value {
    pub fn fields(&self) -> &[(String, Value)] {
        match self {
            Value::Object(fields) => fields,
            other => panic!("no object: {other:?}"),
        }
    }

    pub fn field(&self, name: &str) -> &Value {
        let found = self.fields().iter().find(|(field, _)| field == name);
        &found.unwrap_or_else(|| panic!("no field {name}")).1
    }

    pub fn float(&self) -> f64 {
        match self {
            Value::Number(x) => *x,
            other => panic!("no number: {other:?}"),
        }
    }

    pub fn floats(&self) -> Vec<f64> {
        self.entries().iter().map(Value::float).collect()
    }

    pub fn entries(&self) -> &[Value] {
        match self {
            Value::List(entries) => entries,
            other => panic!("no list: {other:?}"),
        }
    }

    pub fn text(&self) -> &str {
        match self {
            Value::Text(text) => text,
            other => panic!("no text: {other:?}"),
        }
    }
}

/// The value that `text` is, with nothing but a line's end after it.
pub fn read(text: &str) -> Result<Value, String> {
    let mut reader = Reader { rest: text };
    let value = reader.value()?;
    match reader.rest.trim_end() {
        "" => Ok(value),
        rest => Err(format!("after the value: {rest}")),
    }
}

struct Reader<'a> {
    rest: &'a str,
}

impl Reader<'_> {
    fn take(&mut self, word: &str) -> bool {
        match self.rest.strip_prefix(word) {
            Some(rest) => {
                self.rest = rest;
                true
            }
            None => false,
        }
    }

    fn value(&mut self) -> Result<Value, String> {
        if self.take("null") {
            Ok(Value::Null)
        } else if self.take("true") {
            Ok(Value::True)
        } else if self.rest.starts_with('"') {
            self.text().map(Value::Text)
        } else if self.take("[") {
            self.entries("]", Self::value).map(Value::List)
        } else if self.take("{") {
            self.entries("}", Self::pair).map(Value::Object)
        } else {
            self.number()
        }
    }

    fn entries<T>(
        &mut self,
        end: &str,
        entry: impl Fn(&mut Self) -> Result<T, String>,
    ) -> Result<Vec<T>, String> {
        let mut entries = Vec::new();
        if self.take(end) {
            return Ok(entries);
        }
        loop {
            entries.push(entry(self)?);
            if self.take(end) {
                return Ok(entries);
            }
            if !self.take(",") {
                return Err(format!("no comma before {}", self.rest));
            }
        }
    }

    fn pair(&mut self) -> Result<(String, Value), String> {
        let name = self.text()?;
        if !self.take(":") {
            return Err(format!("no colon after {name}"));
        }
        Ok((name, self.value()?))
    }

    /// A text without escapes.
    fn text(&mut self) -> Result<String, String> {
        let inner = self.rest.strip_prefix('"').ok_or("no text")?;
        let (text, rest) = inner.split_once('"').ok_or("an open text")?;
        if text.contains(['\\', '\n']) {
            return Err(format!("a mark in {text}"));
        }
        self.rest = rest;
        Ok(text.to_string())
    }

    /// An optional minus, digits, and optional fraction and exponent.
    fn number(&mut self) -> Result<Value, String> {
        let end = self
            .rest
            .find([',', ']', '}', '\n'])
            .unwrap_or(self.rest.len());
        let (digits, rest) = self.rest.split_at(end);
        let first = digits.trim_start_matches('-').chars().next();
        let number = digits.parse().map_err(|_| format!("no value: {digits}"))?;
        self.rest = rest;
        match first {
            Some('0'..='9') => Ok(Value::Number(number)),
            _ => Err(format!("no JSON number: {digits}")),
        }
    }
}
