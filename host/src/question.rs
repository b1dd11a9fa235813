//! Questions as values.

use crate::parse::{Fields, ParseError};
use crate::{Package, Type};
use std::fmt::{self, Display, Formatter};
use std::str::FromStr;

/// A question on a table. It prints as its line, without the newline, and is read from it. (A name that has a newline
/// within prints as two lines; the library refuses such a question, alone and in a batch.)
///
/// ```
/// use yifgrun::{Question, Type};
///
/// let question: Question = "S\t7\t0\t-\tClose".parse()?;
/// assert_eq!(question, Question::select(Type(7), false, None, "Close"));
/// assert_eq!(question.to_string(), "S\t7\t0\t-\tClose");
/// # Ok::<(), yifgrun::ParseError>(())
/// ```
#[derive(Clone, Debug, PartialEq, Eq, Hash)]
#[non_exhaustive]
pub enum Question {
    /// `S t a pkg name`: which field or method is `x.name`?
    Select {
        /// The type of x.
        receiver: Type,
        /// Whether x is addressable, as a variable is.
        addressable: bool,
        /// The package that the selector stands in.
        package: Option<Package>,
        /// The selector.
        name: String,
    },
    /// `M t`: what is the method set of a type?
    MethodSet {
        /// The type.
        of: Type,
    },
    /// `N t i s`: does a type have the methods of an interface, or which does it lack?
    Missing {
        /// The type that should have them.
        of: Type,
        /// The interface: itself of kind `iface`, not a name of one.
        interface: Type,
        /// Of an interface `of`: whether every value must have the methods, or only some value might.
        is_static: bool,
    },
    /// `I x y`: are two types identical?
    Identical {
        /// The one.
        left: Type,
        /// The other.
        right: Type,
    },
    /// `C t`: can values of a type be compared?
    Comparable {
        /// The type.
        of: Type,
    },
    /// `V`: how many packages, types and members has the table?
    Loaded,
}

impl Question {
    /// The question S; the others are as short as their variants.
    pub fn select(
        receiver: Type,
        addressable: bool,
        package: Option<Package>,
        name: impl Into<String>,
    ) -> Question {
        Question::Select {
            receiver,
            addressable,
            package,
            name: name.into(),
        }
    }

    /// The question with its types' numbers carried over, such as those that
    /// [`Library::tidy_numbers`](crate::Library::tidy_numbers) gives: that of type t is `numbers[t]`. A number that
    /// `numbers` lacks stays as it is.
    ///
    /// ```
    /// use yifgrun::{Question, Type};
    ///
    /// let question = Question::Identical { left: Type(2), right: Type(0) };
    /// let carried = question.carried(&[Type(0), Type(0), Type(1)]);
    /// assert_eq!(carried, Question::Identical { left: Type(1), right: Type(0) });
    /// ```
    #[must_use]
    pub fn carried(&self, numbers: &[Type]) -> Question {
        let mut carried = self.clone();
        let carry = |of: &mut Type| *of = *numbers.get(usize::from(*of)).unwrap_or(of);
        match &mut carried {
            Question::Select { receiver: of, .. }
            | Question::MethodSet { of }
            | Question::Comparable { of } => carry(of),
            Question::Missing {
                of: one,
                interface: other,
                ..
            }
            | Question::Identical {
                left: one,
                right: other,
            } => {
                carry(one);
                carry(other);
            }
            Question::Loaded => (),
        }
        carried
    }
}

impl Display for Question {
    fn fmt(&self, f: &mut Formatter) -> fmt::Result {
        match self {
            Question::Select {
                receiver,
                addressable,
                package,
                name,
            } => {
                write!(f, "S\t{receiver}\t{}\t", u8::from(*addressable))?;
                match package {
                    Some(package) => write!(f, "{package}\t{name}"),
                    None => write!(f, "-\t{name}"),
                }
            }
            Question::MethodSet { of } => write!(f, "M\t{of}"),
            Question::Missing {
                of,
                interface,
                is_static,
            } => write!(f, "N\t{of}\t{interface}\t{}", u8::from(*is_static)),
            Question::Identical { left, right } => write!(f, "I\t{left}\t{right}"),
            Question::Comparable { of } => write!(f, "C\t{of}"),
            Question::Loaded => f.write_str("V"),
        }
    }
}

impl FromStr for Question {
    type Err = ParseError;

    fn from_str(line: &str) -> Result<Question, ParseError> {
        let mut fields = Fields::of(line, "a question");
        let question = match fields.field()? {
            "S" => Question::Select {
                receiver: fields.number()?,
                addressable: fields.bit()?,
                package: fields.package()?,
                name: fields.name()?.to_owned(),
            },
            "M" => Question::MethodSet {
                of: fields.number()?,
            },
            "N" => Question::Missing {
                of: fields.number()?,
                interface: fields.number()?,
                is_static: fields.bit()?,
            },
            "I" => Question::Identical {
                left: fields.number()?,
                right: fields.number()?,
            },
            "C" => Question::Comparable {
                of: fields.number()?,
            },
            "V" => Question::Loaded,
            _ => return Err(fields.wrong()),
        };
        fields.end(question)
    }
}
