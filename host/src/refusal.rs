//! Refusals: their kinds, and the papers' words for each, document 01's and for 14 document 02's.

use std::error::Error;
use std::fmt::{self, Debug, Display, Formatter};

/// Why a call gave no answer: the kind of refusal, and the line of the table where it names one.
///
/// ```
/// use yifgrun::{Library, RefusalKind};
///
/// let refusal = Library::new("typetable\t1\nT\tarray\t3\t1\nT\tnamed\t0\n").unwrap_err();
/// assert_eq!((refusal.kind, refusal.line), (RefusalKind::ContainsItself, 2));
/// assert_eq!(refusal.to_string(), "line 2: a type contains itself by value (refusal 10)");
/// ```
#[derive(Clone, Copy, PartialEq, Eq, Hash)]
#[non_exhaustive]
pub struct Refusal {
    /// Which refusal it is.
    pub kind: RefusalKind,
    /// The line of the table, the first being 1; 0 where none is named (refusals 1, 2, 11, 12, 13).
    pub line: u16,
}

/// What is refused.
#[derive(Clone, Copy, Debug, PartialEq, Eq, Hash)]
#[non_exhaustive]
pub enum RefusalKind {
    /// 1: the work area has too few words. Only a caller who lends it meets this.
    WorkTooShort,
    /// 2: the table has too many bytes.
    TableTooLong,
    /// 3: the first line is not that of a table.
    Header,
    /// 4: a line has a wrong form.
    Form,
    /// 5: a line is out of place.
    Place,
    /// 6: there are too many packages, types or members.
    TooMany,
    /// 7: a package or type number is referred to that the table lacks.
    Lacking,
    /// 8: a type is referred to that may not be: it comes later in the table, or is of a kind that is not allowed
    /// there; or a method of an interface has a pointer receiver.
    Kind,
    /// 9: a member's identity clashes with another's, or an interface's methods do not ascend.
    Clash,
    /// 10: a type contains itself by value.
    ContainsItself,
    /// 11: the question has a wrong form, is too long, or has a number that the table lacks.
    Question,
    /// 12: the second type of [`Question::Missing`](crate::Question::Missing) is no interface itself.
    NotAnInterface,
    /// 13: the answer, or the tidied table, has no room. Only a caller who lends the buffer meets this.
    AnswerTooLong,
    /// 14: packages are not in the order of their paths.
    PackageOrder,
    /// A number that only a newer archive than this package gives.
    Other(u8),
}

/// The kinds with their words, from refusal 1 on.
const KINDS: [(RefusalKind, &str); 14] = [
    (
        RefusalKind::WorkTooShort,
        "the work area has fewer words than a call needs",
    ),
    (
        RefusalKind::TableTooLong,
        "the table has more than 65,536 bytes",
    ),
    (
        RefusalKind::Header,
        "the first line is not exactly `typetable`, tab, `1`, newline",
    ),
    (
        RefusalKind::Form,
        "wrong form: letter, field count, value outside its range, or no newline",
    ),
    (
        RefusalKind::Place,
        "out of place: P after T, F not under a struct, M not under a named type or interface",
    ),
    (
        RefusalKind::TooMany,
        "too many: a 65th package, 513th type, 2,049th member, or 256th member of one type",
    ),
    (
        RefusalKind::Lacking,
        "the table lacks a package or type number referred to",
    ),
    (
        RefusalKind::Kind,
        "a type is referred to that may not be: it comes later in the table, or is of a kind that is not allowed \
         there; or a method of an interface has a pointer receiver",
    ),
    (
        RefusalKind::Clash,
        "a member's identity clashes, or an interface's methods do not ascend",
    ),
    (
        RefusalKind::ContainsItself,
        "a type contains itself by value",
    ),
    (
        RefusalKind::Question,
        "the question has a wrong form, more than 256 bytes, or a number that the table lacks",
    ),
    (
        RefusalKind::NotAnInterface,
        "the second type of an N question is not an interface itself (of a named one, give the type under it)",
    ),
    (
        RefusalKind::AnswerTooLong,
        "the answer, or the tidied table, is longer than the buffer",
    ),
    (
        RefusalKind::PackageOrder,
        "package out of order: its path does not come after the one before",
    ),
];

impl RefusalKind {
    /// The kind of a refusal's number.
    pub(crate) fn of(number: u8) -> RefusalKind {
        let place = usize::from(number).wrapping_sub(1);
        KINDS.get(place).map_or(RefusalKind::Other(number), |k| k.0)
    }

    /// The refusal's number, 1 to 14.
    ///
    /// ```
    /// assert_eq!(yifgrun::RefusalKind::PackageOrder.number(), 14);
    /// ```
    pub fn number(self) -> u8 {
        match (self, self.place()) {
            (RefusalKind::Other(number), _) => number,
            (_, place) => place.map_or(0, |place| place as u8 + 1),
        }
    }

    /// What is refused, in words.
    pub fn words(self) -> &'static str {
        self.place()
            .map_or("an unknown refusal", |place| KINDS[place].1)
    }

    /// Whether the table is refused, and so every question on it: refusals 2 to 10, and 14.
    ///
    /// ```
    /// use yifgrun::RefusalKind;
    ///
    /// assert!(RefusalKind::PackageOrder.is_of_table());
    /// assert!(!RefusalKind::AnswerTooLong.is_of_table());
    /// ```
    pub fn is_of_table(self) -> bool {
        matches!(self.number(), 2..=10 | 14)
    }

    fn place(self) -> Option<usize> {
        KINDS.iter().position(|&(kind, _)| kind == self)
    }
}

impl Refusal {
    /// The refusal that a number below 0 stands for: minus (refusal × 65,536 + line).
    pub(crate) fn of(number: i64) -> Refusal {
        let size = number.unsigned_abs();
        let kind = u8::try_from(size / 65_536).unwrap_or(u8::MAX);
        Refusal {
            kind: RefusalKind::of(kind),
            line: (size % 65_536) as u16,
        }
    }

    /// The refusal of a question, which names no line.
    pub(crate) fn of_question(number: u8) -> Refusal {
        Refusal {
            kind: RefusalKind::of(number),
            line: 0,
        }
    }

    /// The refusal's number, 1 to 14.
    pub fn number(&self) -> u8 {
        self.kind.number()
    }
}

impl Display for RefusalKind {
    fn fmt(&self, f: &mut Formatter) -> fmt::Result {
        write!(f, "{} (refusal {})", self.words(), self.number())
    }
}

impl Display for Refusal {
    fn fmt(&self, f: &mut Formatter) -> fmt::Result {
        if self.line > 0 {
            write!(f, "line {}: ", self.line)?;
        }
        Display::fmt(&self.kind, f)
    }
}

/// With the words too, since a `main` that ends in a refusal shows this form of it.
impl Debug for Refusal {
    fn fmt(&self, f: &mut Formatter) -> fmt::Result {
        f.debug_struct("Refusal")
            .field("kind", &self.kind)
            .field("line", &self.line)
            .field("words", &self.kind.words())
            .finish()
    }
}

impl Error for Refusal {}
