//! Answers as values.

use crate::parse::{Fields, ParseError};
use crate::Member;
use std::fmt::{self, Display, Formatter};
use std::str::FromStr;

/// An answer. It prints as its lines, each with its newline, and is read from them.
///
/// ```
/// use yifgrun::{Answer, Member, Selection};
///
/// let answer: Answer = "entry\t1\t1\t0\t0\n".parse()?;
/// let entry = Selection::Entry { member: Member(1), indirect: true, way: vec![0, 0] };
/// assert_eq!(answer, Answer::Selection(entry));
/// assert_eq!(answer.to_string(), "entry\t1\t1\t0\t0\n");
/// # Ok::<(), yifgrun::ParseError>(())
/// ```
#[derive(Clone, Debug, PartialEq, Eq, Hash)]
#[non_exhaustive]
pub enum Answer {
    /// To S.
    Selection(Selection),
    /// To M: the methods in the order of their ids.
    MethodSet(Vec<Method>),
    /// To N.
    Satisfaction(Satisfaction),
    /// To I and C.
    Holds(bool),
    /// To V.
    Loaded(Counts),
}

/// What `x.name` means.
///
/// A way is the places that lead to a member: of each embedded field on it among the fields of its struct, and
/// of the member itself in its list, the fields of a struct or the methods of a named type or of an interface.
#[derive(Clone, Debug, PartialEq, Eq, Hash)]
pub enum Selection {
    /// A field or method.
    Entry {
        /// Which.
        member: Member,
        /// Whether a pointer is followed on the way.
        indirect: bool,
        /// The places that lead to it.
        way: Vec<usize>,
    },
    /// A method with a pointer receiver, and x is neither addressable nor reached by a pointer.
    BadReceiver,
    /// Two or more fields or methods lie equally deep, and no other less deep.
    Ambiguous {
        /// The way to the first of them.
        first: Vec<usize>,
        /// The way to the second.
        second: Vec<usize>,
    },
    /// None.
    NotFound,
}

/// A method of a method set.
#[derive(Clone, Debug, PartialEq, Eq, Hash)]
pub struct Method {
    /// Which.
    pub member: Member,
    /// Whether a pointer is followed on the way.
    pub indirect: bool,
    /// The places that lead to it, as in [`Selection`].
    pub way: Vec<usize>,
}

/// Whether a type has the methods of an interface.
#[derive(Clone, Copy, Debug, PartialEq, Eq, Hash)]
pub enum Satisfaction {
    /// All of them.
    Satisfied,
    /// Not this one, the first in the interface's order.
    Missing {
        /// The interface's method.
        method: Member,
        /// Whether there is a method of its identity, with another type.
        wrong_type: bool,
    },
}

/// How many packages, types and members a table has.
#[derive(Clone, Copy, Debug, PartialEq, Eq, Hash)]
pub struct Counts {
    /// P lines.
    pub packages: u16,
    /// T lines.
    pub types: u16,
    /// F and M lines.
    pub members: u16,
}

/// The places of a way, each behind a tab.
struct Places<'a>(&'a [usize]);

impl Display for Places<'_> {
    fn fmt(&self, f: &mut Formatter) -> fmt::Result {
        self.0.iter().try_for_each(|place| write!(f, "\t{place}"))
    }
}

impl Display for Selection {
    fn fmt(&self, f: &mut Formatter) -> fmt::Result {
        match self {
            Selection::Entry {
                member,
                indirect,
                way,
            } => writeln!(f, "entry\t{member}\t{}{}", u8::from(*indirect), Places(way)),
            Selection::BadReceiver => f.write_str("badreceiver\n"),
            Selection::Ambiguous { first, second } => {
                writeln!(f, "ambiguous{}\nand{}", Places(first), Places(second))
            }
            Selection::NotFound => f.write_str("notfound\n"),
        }
    }
}

impl Display for Method {
    fn fmt(&self, f: &mut Formatter) -> fmt::Result {
        let (member, indirect) = (self.member, u8::from(self.indirect));
        writeln!(f, "sel\t{member}\t{indirect}{}", Places(&self.way))
    }
}

impl Display for Satisfaction {
    fn fmt(&self, f: &mut Formatter) -> fmt::Result {
        match self {
            Satisfaction::Satisfied => f.write_str("satisfied\n"),
            Satisfaction::Missing { method, wrong_type } => {
                writeln!(f, "missing\t{method}\t{}", u8::from(*wrong_type))
            }
        }
    }
}

impl Display for Counts {
    fn fmt(&self, f: &mut Formatter) -> fmt::Result {
        writeln!(f, "ok\t{}\t{}\t{}", self.packages, self.types, self.members)
    }
}

impl Display for Answer {
    fn fmt(&self, f: &mut Formatter) -> fmt::Result {
        match self {
            Answer::Selection(selection) => selection.fmt(f),
            Answer::MethodSet(methods) => {
                writeln!(f, "set\t{}", methods.len())?;
                methods.iter().try_for_each(|method| method.fmt(f))
            }
            Answer::Satisfaction(satisfaction) => satisfaction.fmt(f),
            Answer::Holds(true) => f.write_str("yes\n"),
            Answer::Holds(false) => f.write_str("no\n"),
            Answer::Loaded(counts) => counts.fmt(f),
        }
    }
}

impl FromStr for Answer {
    type Err = ParseError;

    fn from_str(text: &str) -> Result<Answer, ParseError> {
        let none = || ParseError::not("an answer", text);
        let body = text.strip_suffix('\n').ok_or_else(none)?;
        let mut lines = body.split('\n').map(|line| Fields::of(line, "an answer"));
        let first = lines.next().ok_or_else(none)?;
        let answer = read(first, &mut lines)?;
        lines.next().map_or(Ok(answer), |_| Err(none()))
    }
}

/// The answer that begins with a line, with those of the lines behind that go on with it.
fn read<'a>(
    mut line: Fields<'a>,
    behind: &mut impl Iterator<Item = Fields<'a>>,
) -> Result<Answer, ParseError> {
    let answer = match line.field()? {
        "entry" => Answer::Selection(entry(&mut line)?),
        "badreceiver" => Answer::Selection(Selection::BadReceiver),
        "ambiguous" => Answer::Selection(Selection::Ambiguous {
            first: line.way()?,
            second: second(behind.next().ok_or_else(|| line.wrong())?)?,
        }),
        "notfound" => Answer::Selection(Selection::NotFound),
        "set" => {
            let count = line.number::<u16>()?;
            let each = (0..count).map(|_| method(behind.next().ok_or_else(|| line.wrong())?));
            Answer::MethodSet(each.collect::<Result<_, _>>()?)
        }
        "satisfied" => Answer::Satisfaction(Satisfaction::Satisfied),
        "missing" => Answer::Satisfaction(Satisfaction::Missing {
            method: line.number()?,
            wrong_type: line.bit()?,
        }),
        "yes" => Answer::Holds(true),
        "no" => Answer::Holds(false),
        "ok" => Answer::Loaded(counts(&mut line)?),
        _ => return Err(line.wrong()),
    };
    line.end(answer)
}

fn entry(line: &mut Fields) -> Result<Selection, ParseError> {
    Ok(Selection::Entry {
        member: line.number()?,
        indirect: line.bit()?,
        way: line.way()?,
    })
}

/// The second way of an ambiguous name.
fn second(mut line: Fields) -> Result<Vec<usize>, ParseError> {
    match line.field()? {
        "and" => line.way(),
        _ => Err(line.wrong()),
    }
}

fn method(mut line: Fields) -> Result<Method, ParseError> {
    match line.field()? {
        "sel" => Ok(Method {
            member: line.number()?,
            indirect: line.bit()?,
            way: line.way()?,
        }),
        _ => Err(line.wrong()),
    }
}

fn counts(line: &mut Fields) -> Result<Counts, ParseError> {
    Ok(Counts {
        packages: line.number()?,
        types: line.number()?,
        members: line.number()?,
    })
}
