//! The papers' bounds. Tests have them from here, and not from the code that is tested.

// Each test takes those that it needs.
#![allow(dead_code)]

pub const PACKAGES: usize = 64;
pub const TYPES: usize = 512;
pub const MEMBERS: usize = 2_048;
pub const MEMBERS_OF_ONE: usize = 255;

/// The bytes of a table, and of all that `typeask` reads.
pub const TEXT: usize = 65_536;

/// The bytes of a question.
pub const QUESTION: usize = 256;

/// The bytes of an answer of `typeask`.
pub const ANSWER: usize = 16_384;
