//! Member selection over Go type tables: the proved library, called from Rust.
//!
//! A table of types is a text, and a question on it is a line: which field or method a selector means (`S`),
//! what a type's method set is (`M`), which method of an interface a type lacks (`N`), whether two types are
//! identical (`I`), whether a type's values can be compared (`C`), and whether the table loads (`V`).
//!
//! | to | |
//! |---|---|
//! | ask with values and get values | [`Library`], [`Question`], [`Answer`], [`Refusal`] |
//! | make a table from calls | [`TableBuilder`] |
//! | ask with texts and get texts | [`Answers`], and [`each_answer`] for those of many questions |
//! | write a table out again without repeated types | [`Library::tidy`], [`Answers::tidy`] |
//! | make the archive's calls on lent buffers | [`ask`], [`ask_all`], [`tidy`], [`work_words`] |
//! | see which archive is linked | [`version`] |
//!
//! ```
//! use yifgrun::{Library, Member, Package, Satisfaction, Selection, Type};
//!
//! // package office/cat
//! // type Block struct { Len int };  func (b *Block) Close() {};  type Shelf struct { *Block }
//! let table = "\
//! typetable 1
//! P office/cat
//! T basic 2
//! T tuple
//! T func 0 1 1
//! T named 4
//! M Close 0 2 1
//! T struct
//! F Len 0 0 0
//! T pointer 3
//! T struct
//! F Block 0 5 1
//! T named 6
//! T iface
//! M Close 0 2 0
//! "
//! .replace(' ', "\t");
//! let (block, shelf, closer, cat) = (Type(3), Type(7), Type(8), Some(Package(0)));
//! let mut library = Library::new(table)?;
//!
//! let close = Selection::Entry { member: Member(0), indirect: true, way: vec![0, 0] };
//! assert_eq!(library.select(shelf, false, cat, "Close")?, close);
//! assert_eq!(library.select(block, false, cat, "Close")?, Selection::BadReceiver);
//! assert_eq!(library.select(shelf, false, cat, "Open")?, Selection::NotFound);
//! assert_eq!(library.method_set(block)?, []);
//! assert_eq!(library.method_set(shelf)?.len(), 1);
//! assert_eq!(library.missing(shelf, closer, true)?, Satisfaction::Satisfied);
//! let missing = Satisfaction::Missing { method: Member(3), wrong_type: false };
//! assert_eq!(library.missing(block, closer, true)?, missing);
//! assert!(library.comparable(shelf)?);
//! # Ok::<(), yifgrun::Refusal>(())
//! ```
//!
//! The library holds nothing between calls and allocates nothing: calls on different buffers may run at the same
//! time. A question nests at most 762 levels (`I` on types that lie within one another): [`ask`] takes less than
//! 512 KB of stack, [`ask_all`] less than 600 KB.
//!
//! The archive is made for x86-64 Linux. `cargo check`, `clippy` and `doc` work without it, and for other targets.

#![deny(missing_docs)]

mod answer;
mod answers;
mod archive;
mod builder;
mod each;
mod explain;
mod library;
mod numbers;
mod parse;
mod question;
mod refusal;
mod twins;

pub use answer::{Answer, Counts, Method, Satisfaction, Selection};
pub use answers::Answers;
pub use archive::{ask, ask_all, tidy, version, work_words, Version};
pub use builder::{Added, Basic, Direction, Receiver, Table, TableBuilder};
pub use each::each_answer;
pub use library::Library;
pub use numbers::{Member, Package, Type};
pub use parse::ParseError;
pub use question::Question;
pub use refusal::{Refusal, RefusalKind};

/// The examples of the README, as tests.
#[cfg(doctest)]
#[doc = include_str!("../../README.md")]
struct Readme;
