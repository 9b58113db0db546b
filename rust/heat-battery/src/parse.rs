//! Fields read from text.

use crate::field::{Field, Shape, Value};
use crate::service::ServiceType;
use std::num::ParseIntError;
use std::str::FromStr;

/// Why a text is no value of a field, in words.
pub(crate) enum Misread {
    /// It can't be read.
    Words(String),
    /// It is a number, but out of range.
    Range(String),
}

impl Field {
    /// Reads the value from text.
    pub(crate) fn parse(&self, text: &str) -> Result<Value, Misread> {
        let other =
            || Misread::Words(format!("{} is {}, not {}", self.name, quoted(text), self.range()));
        match self.shape {
            Shape::Byte => self.parse_whole(text).map(Value::Byte),
            Shape::Short => self.parse_whole(text).map(Value::Short),
            Shape::Flag => match text {
                "yes" | "1" => Ok(Value::Flag(true)),
                "no" | "0" => Ok(Value::Flag(false)),
                _ => Err(other()),
            },
            Shape::Service => service(text).map(Value::Service).ok_or_else(other),
            Shape::Optional if text == "none" => Ok(Value::Optional(None)),
            Shape::Optional => self.parse_number(text).map(|x| Value::Optional(Some(x))),
            Shape::Number => self.parse_number(text).map(Value::Number),
        }
    }

    /// A whole number, out of range where it is too large or too small for its bytes.
    fn parse_whole<T: FromStr<Err = ParseIntError>>(&self, text: &str) -> Result<T, Misread> {
        let digits = text.strip_prefix(['-', '+']).unwrap_or(text);
        text.parse().map_err(|_| match is_digits(digits) {
            true => Misread::Range(self.out_of_range(&cut(text))),
            false => Misread::Words(format!("{} is {}, no whole number", self.name, quoted(text))),
        })
    }

    fn parse_number(&self, text: &str) -> Result<f64, Misread> {
        text.parse().map_err(|_| {
            let comma = if text.contains(',') { " (write a point, not a comma)" } else { "" };
            Misread::Words(format!("{} is {}, no number{comma}", self.name, quoted(text)))
        })
    }
}

/// A service by its name or its number.
fn service(text: &str) -> Option<ServiceType> {
    let named = ServiceType::NAMED.into_iter().find(|service| service.name() == Some(text));
    let number = text.parse().ok().filter(|_| is_digits(text));
    named.or(number.map(ServiceType::from_number))
}

pub(crate) fn is_digits(text: &str) -> bool {
    !text.is_empty() && text.bytes().all(|byte| byte.is_ascii_digit())
}

/// Text of a file inside quotation marks, cut and free of control characters.
pub(crate) fn quoted(text: &str) -> String {
    format!("'{}'", cut(text))
}

/// The same without the marks.
pub(crate) fn cut(text: &str) -> String {
    const MOST: usize = 40;
    let cut: String = text.chars().take(MOST).collect();
    let dots = if text.chars().nth(MOST).is_some() { "..." } else { "" };
    format!("{}{dots}", cut.escape_debug())
}
