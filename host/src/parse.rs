//! How the fields of a line are read, once for questions and answers.

use crate::Package;
use std::error::Error;
use std::fmt::{self, Display, Formatter};
use std::iter;
use std::str::Split;

/// A text that is no question or no answer.
///
/// ```
/// use yifgrun::Question;
///
/// let error = "M\t07".parse::<Question>().unwrap_err();
/// assert_eq!(error.to_string(), "`07` is not a number of one to four digits without leading zeros");
/// ```
#[derive(Clone, Debug, PartialEq, Eq)]
#[non_exhaustive]
pub struct ParseError {
    /// What was found, and what it is not.
    message: String,
}

impl ParseError {
    pub(crate) fn not(expected: &str, found: &str) -> ParseError {
        let found = found.trim_end_matches('\n').replace('\t', " ");
        let message = format!("`{}` is not {expected}", found.escape_debug());
        ParseError { message }
    }
}

impl Display for ParseError {
    fn fmt(&self, f: &mut Formatter) -> fmt::Result {
        f.write_str(&self.message)
    }
}

impl Error for ParseError {}

/// Digits of a number of a type, package, member or place.
const MOST_DIGITS: usize = 4;

/// Bytes of a name.
const MOST_NAME: usize = 64;

/// The fields of a line, read one after the other.
pub struct Fields<'a> {
    line: &'a str,
    /// What the line should be.
    expected: &'static str,
    rest: Split<'a, char>,
}

impl<'a> Fields<'a> {
    pub fn of(line: &'a str, expected: &'static str) -> Fields<'a> {
        Fields {
            line,
            expected,
            rest: line.split('\t'),
        }
    }

    /// The line is not what it should be.
    pub fn wrong(&self) -> ParseError {
        ParseError::not(self.expected, self.line)
    }

    pub fn field(&mut self) -> Result<&'a str, ParseError> {
        self.rest.next().ok_or_else(|| self.wrong())
    }

    pub fn number<N: From<u16>>(&mut self) -> Result<N, ParseError> {
        number(self.field()?)
    }

    pub fn bit(&mut self) -> Result<bool, ParseError> {
        bit(self.field()?)
    }

    pub fn package(&mut self) -> Result<Option<Package>, ParseError> {
        package(self.field()?)
    }

    /// A name: ASCII letters, digits and `_`, and no digit first.
    pub fn name(&mut self) -> Result<&'a str, ParseError> {
        let field = self.field()?;
        let in_name = |b: u8| b.is_ascii_alphanumeric() || b == b'_';
        let form = field.bytes().all(in_name) && (1..=MOST_NAME).contains(&field.len());
        if form && !field.starts_with(|c: char| c.is_ascii_digit()) {
            return Ok(field);
        }
        Err(ParseError::not("a name", field))
    }

    /// The places of a way, one at least: all fields that are left.
    pub fn way(&mut self) -> Result<Vec<usize>, ParseError> {
        let first = number::<u16>(self.field()?);
        let places = iter::once(first).chain(self.rest.by_ref().map(number));
        places.map(|place| place.map(usize::from)).collect()
    }

    /// What was read, if no field is left.
    pub fn end<T>(mut self, read: T) -> Result<T, ParseError> {
        match self.rest.next() {
            None => Ok(read),
            Some(_) => Err(self.wrong()),
        }
    }
}

/// 0 or 1.
pub fn bit(field: &str) -> Result<bool, ParseError> {
    match field {
        "0" => Ok(false),
        "1" => Ok(true),
        _ => Err(ParseError::not("0 or 1", field)),
    }
}

/// A package's number, or `-` for none.
pub fn package(field: &str) -> Result<Option<Package>, ParseError> {
    match field {
        "-" => Ok(None),
        _ => number(field).map(Some),
    }
}

/// A number of one to four digits, without sign and leading zeros.
pub fn number<N: From<u16>>(field: &str) -> Result<N, ParseError> {
    let digits = field.bytes().all(|b| b.is_ascii_digit());
    let form = digits && field.len() <= MOST_DIGITS && (field == "0" || !field.starts_with('0'));
    let number = field.parse::<u16>().ok().filter(|_| form);
    let expected = "a number of one to four digits without leading zeros";
    number
        .map(N::from)
        .ok_or_else(|| ParseError::not(expected, field))
}
