//! As much JSON as plans need: a value with integers, read with the line of an error, and text made safe for a string.

use std::fmt::Write;

use crate::text::TextError;

#[derive(Clone, PartialEq, Debug)]
pub enum Json {
    Null,
    Bool(bool),
    /// A number that is a natural one below 2^53; every other is `Other`.
    Natural(u64),
    Other(f64),
    Text(String),
    List(Vec<Json>),
    Object(Vec<(String, Json)>),
}

impl Json {
    /// The value of a name in an object.
    pub fn get(&self, name: &str) -> Option<&Json> {
        match self {
            Json::Object(entries) => entries.iter().find(|entry| entry.0 == name).map(|entry| &entry.1),
            _ => None,
        }
    }

    pub fn natural(&self) -> Option<u64> {
        match self {
            Json::Natural(value) => Some(*value),
            _ => None,
        }
    }

    pub fn text(&self) -> Option<&str> {
        match self {
            Json::Text(text) => Some(text),
            _ => None,
        }
    }

    pub fn list(&self) -> Option<&[Json]> {
        match self {
            Json::List(values) => Some(values),
            _ => None,
        }
    }
}

/// A JSON string with its quotes. `<` is escaped too, so that it may stand in a page.
pub fn quoted(text: &str) -> String {
    let mut out = String::from("\"");
    for letter in text.chars() {
        match letter {
            '"' => out.push_str("\\\""),
            '\\' => out.push_str("\\\\"),
            '\n' => out.push_str("\\n"),
            '<' | '>' | '&' | '\u{2028}' | '\u{2029}' => push_escape(&mut out, letter),
            letter if letter.is_control() => push_escape(&mut out, letter),
            letter => out.push(letter),
        }
    }
    out.push('"');
    out
}

fn push_escape(out: &mut String, letter: char) {
    // Every letter that is escaped has one unit of 16 bits.
    let _ = write!(out, "\\u{:04x}", u32::from(letter));
}

/// Numbers with commas between, in brackets.
pub fn numbers<T: ToString>(values: impl IntoIterator<Item = T>) -> String {
    let values: Vec<String> = values.into_iter().map(|value| value.to_string()).collect();
    format!("[{}]", values.join(","))
}

/// Lists and objects within each other, at most.
const DEPTH: usize = 32;

pub fn parse(text: &str) -> Result<Json, TextError> {
    let mut reader = Reader { rest: text, whole: text };
    let value = reader.value(DEPTH)?;
    reader.space();
    if reader.rest.is_empty() {
        Ok(value)
    } else {
        reader.wrong("something follows the JSON value")
    }
}

struct Reader<'a> {
    rest: &'a str,
    whole: &'a str,
}

impl Reader<'_> {
    fn wrong<T>(&self, message: &str) -> Result<T, TextError> {
        let read = &self.whole[..self.whole.len() - self.rest.len()];
        let line = 1 + read.matches('\n').count();
        Err(TextError { line, message: message.to_string() })
    }

    fn space(&mut self) {
        self.rest = self.rest.trim_start_matches([' ', '\t', '\r', '\n']);
    }

    /// Takes the text if it comes next.
    fn take(&mut self, text: &str) -> bool {
        match self.rest.strip_prefix(text) {
            Some(rest) => {
                self.rest = rest;
                true
            }
            None => false,
        }
    }

    fn value(&mut self, depth: usize) -> Result<Json, TextError> {
        self.space();
        if depth == 0 {
            return self.wrong("lists within lists go too deep");
        }
        if self.take("{") {
            return self.object(depth);
        }
        if self.take("[") {
            return self.list(depth);
        }
        if self.rest.starts_with('"') {
            return Ok(Json::Text(self.string()?));
        }
        for (word, value) in [("null", Json::Null), ("true", Json::Bool(true)), ("false", Json::Bool(false))]
        {
            if self.take(word) {
                return Ok(value);
            }
        }
        self.number()
    }

    fn list(&mut self, depth: usize) -> Result<Json, TextError> {
        let mut values = Vec::new();
        self.space();
        if self.take("]") {
            return Ok(Json::List(values));
        }
        loop {
            values.push(self.value(depth - 1)?);
            self.space();
            if self.take("]") {
                return Ok(Json::List(values));
            }
            if !self.take(",") {
                return self.wrong("`,` or `]` is missing");
            }
        }
    }

    fn object(&mut self, depth: usize) -> Result<Json, TextError> {
        let mut entries = Vec::new();
        self.space();
        if self.take("}") {
            return Ok(Json::Object(entries));
        }
        loop {
            self.space();
            let name = self.string()?;
            self.space();
            if !self.take(":") {
                return self.wrong("`:` is missing after a name");
            }
            entries.push((name, self.value(depth - 1)?));
            self.space();
            if self.take("}") {
                return Ok(Json::Object(entries));
            }
            if !self.take(",") {
                return self.wrong("`,` or `}` is missing");
            }
        }
    }

    fn string(&mut self) -> Result<String, TextError> {
        if !self.take("\"") {
            return self.wrong("a string in quotes is missing");
        }
        let mut out = String::new();
        loop {
            let Some(letter) = self.rest.chars().next() else {
                return self.wrong("a string does not end");
            };
            self.rest = &self.rest[letter.len_utf8()..];
            match letter {
                '"' => return Ok(out),
                '\\' => out.push(self.escape()?),
                letter if letter < ' ' => return self.wrong("a control character in a string"),
                letter => out.push(letter),
            }
        }
    }

    /// What follows a backslash. Halves of a pair become the replacement character: no plan has names with them.
    fn escape(&mut self) -> Result<char, TextError> {
        let plain = [
            ("\"", '"'),
            ("\\", '\\'),
            ("/", '/'),
            ("n", '\n'),
            ("t", '\t'),
            ("r", '\r'),
            ("b", '\u{8}'),
            ("f", '\u{c}'),
        ];
        for (text, letter) in plain {
            if self.take(text) {
                return Ok(letter);
            }
        }
        if self.take("u") {
            let digits = self.rest.get(..4).filter(|four| four.bytes().all(|byte| byte.is_ascii_hexdigit()));
            if let Some(code) = digits.and_then(|four| u32::from_str_radix(four, 16).ok()) {
                self.rest = &self.rest[4..];
                return Ok(char::from_u32(code).unwrap_or(char::REPLACEMENT_CHARACTER));
            }
        }
        self.wrong("an escape that JSON does not have")
    }

    fn number(&mut self) -> Result<Json, TextError> {
        let end = self.rest.find(|c: char| !c.is_ascii_alphanumeric() && !"+-.".contains(c));
        let text = &self.rest[..end.unwrap_or(self.rest.len())];
        let natural = text.bytes().all(|byte| byte.is_ascii_digit());
        let value = match (natural, text.parse::<u64>(), text.parse::<f64>()) {
            (true, Ok(value), _) if value < 1 << 53 => Json::Natural(value),
            (_, _, Ok(value))
                if value.is_finite() && text.starts_with(|c: char| c == '-' || c.is_ascii_digit()) =>
            {
                Json::Other(value)
            }
            _ => return self.wrong("a JSON value is missing"),
        };
        self.rest = &self.rest[text.len()..];
        Ok(value)
    }
}
