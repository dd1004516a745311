//! JSON for scripts: one object on one line, in ASCII alone.

use std::fmt::{self, Write as _};
use std::io::{self, Write};

use crate::failure::Failure;
use crate::{Outcome, text};

/// A value of JSON. Keys stand in the order in which they are given.
pub enum Json {
    Null,
    Truth(bool),
    Number(u64),
    /// A float, which JSON can say only if it is a number.
    Float(f32),
    Text(String),
    List(Vec<Json>),
    Object(Vec<(&'static str, Json)>),
}

impl Json {
    /// Bytes that are meant as a text: a string if they are UTF-8, else an object with their hexadecimal digits, so that
    /// every byte is given and none can be mistaken.
    pub fn bytes(bytes: &[u8]) -> Json {
        match str::from_utf8(bytes) {
            Ok(text) => Json::Text(text.into()),
            Err(_) => Json::Object(vec![("hex", Json::hex(bytes))]),
        }
    }

    /// Bytes that are not meant as a text.
    pub fn hex(bytes: &[u8]) -> Json {
        Json::Text(text::digits(bytes))
    }

    /// A text of the command's own.
    pub fn word(word: impl fmt::Display) -> Json {
        Json::Text(word.to_string())
    }

    pub fn number(number: impl Into<u64>) -> Json {
        Json::Number(number.into())
    }

    pub fn list(values: impl IntoIterator<Item = Json>) -> Json {
        Json::List(values.into_iter().collect())
    }

    /// Prints the object of what was accepted, number 0.
    pub fn print(
        members: impl IntoIterator<Item = (&'static str, Json)>,
        output: &mut dyn Write,
    ) -> io::Result<()> {
        let members = [("number", Json::Number(0))].into_iter().chain(members);
        writeln!(output, "{}", Json::Object(members.collect()))
    }

    /// Prints the object of a refusal, and fails as without JSON. Other failures have no object.
    pub fn refused(failure: Failure, output: &mut dyn Write) -> Outcome {
        if let Failure::Refused { number, meaning, .. } = &failure {
            let members = vec![("number", Json::number(*number)), ("meaning", Json::word(meaning))];
            writeln!(output, "{}", Json::Object(members))?;
            output.flush()?;
        }
        Err(failure)
    }
}

impl fmt::Display for Json {
    fn fmt(&self, f: &mut fmt::Formatter<'_>) -> fmt::Result {
        match self {
            Json::Null => f.write_str("null"),
            Json::Truth(truth) => write!(f, "{truth}"),
            Json::Number(number) => write!(f, "{number}"),
            Json::Float(float) if float.is_finite() => write!(f, "{float}"),
            Json::Float(_) => f.write_str("null"),
            Json::Text(text) => string(text, f),
            Json::List(values) => enclosed('[', values, |value, f| value.fmt(f), ']', f),
            Json::Object(members) => enclosed('{', members, member, '}', f),
        }
    }
}

fn member((key, value): &(&'static str, Json), f: &mut fmt::Formatter<'_>) -> fmt::Result {
    string(key, f)?;
    write!(f, ":{value}")
}

/// What is in brackets, with commas between.
fn enclosed<T>(
    open: char,
    inside: &[T],
    one: impl Fn(&T, &mut fmt::Formatter<'_>) -> fmt::Result,
    close: char,
    f: &mut fmt::Formatter<'_>,
) -> fmt::Result {
    f.write_char(open)?;
    for (index, value) in inside.iter().enumerate() {
        f.write_str(if index > 0 { "," } else { "" })?;
        one(value, f)?;
    }
    f.write_char(close)
}

/// A string in ASCII: every other character is an escape, so that no encoding matters and no text commands the terminal.
fn string(text: &str, f: &mut fmt::Formatter<'_>) -> fmt::Result {
    f.write_char('"')?;
    for character in text.chars() {
        match character {
            '"' | '\\' => write!(f, "\\{character}")?,
            ' '..='~' => f.write_char(character)?,
            _ => {
                character.encode_utf16(&mut [0; 2]).iter().try_for_each(|unit| write!(f, "\\u{unit:04x}"))?
            }
        }
    }
    f.write_char('"')
}

#[cfg(test)]
mod tests {
    use super::*;

    #[test]
    fn texts_are_ascii_and_every_byte_is_given() {
        assert_eq!(Json::bytes(b"5\" \\ heel\n").to_string(), r#""5\" \\ heel\u000a""#);
        assert_eq!(Json::bytes("größe 👞".as_bytes()).to_string(), r#""gr\u00f6\u00dfe \ud83d\udc5e""#);
        assert_eq!(Json::bytes(b"last \xFF").to_string(), r#"{"hex":"6C61737420FF"}"#);
        assert_eq!(Json::bytes(b"").to_string(), r#""""#);
    }

    #[test]
    fn values_are_those_of_json() {
        let floats = [23.5, f32::MAX, -0.0, f32::NAN, f32::INFINITY].map(Json::Float);
        let list = Json::list(floats.into_iter().chain([Json::Null, Json::number(u32::MAX)]));
        let expected = "[23.5,340282350000000000000000000000000000000,-0,null,null,null,4294967295]";
        assert_eq!(list.to_string(), expected);
        let object = Json::Object(vec![("a", Json::list([])), ("b", Json::Object(vec![]))]);
        assert_eq!(object.to_string(), r#"{"a":[],"b":{}}"#);
    }
}
