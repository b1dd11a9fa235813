//! Tables that are hard on a search, each with the questions that are.

mod identity;
mod loading;
mod members;
mod twins;

use crate::prng::Prng;
use crate::random::{self, Shape};
use crate::table::{Kind, Member, Table};
use identity::{long_structs, nested_pairs, rings, towers, Nest};
use loading::{long_loads, long_tuple};
use members::{chain, deep_methods, lattice, one_receiver, wide, wide_diamond, wide_methods};
pub use twins::untidy;

/// A table text and questions on it.
pub struct Case {
    pub name: String,
    pub table: String,
    pub questions: Vec<String>,
    /// Whether goscript answers too: not where it would take years, or more stack than there is.
    pub for_goscript: bool,
}

impl Case {
    fn new(name: impl Into<String>, table: &Table, questions: Vec<String>) -> Case {
        Case {
            name: name.into(),
            table: table.to_string(),
            questions,
            for_goscript: true,
        }
    }

    fn without_goscript(self) -> Case {
        Case {
            for_goscript: false,
            ..self
        }
    }
}

/// Every case that is timed.
pub fn cases() -> Vec<Case> {
    let mut cases = vec![worked()];
    cases.extend(identity_cases());
    cases.extend(member_cases());
    cases.extend(random_cases());
    cases.extend(long_loads());
    // 32,766 bytes, and as many as a text may have
    cases.push(long_tuple("a tuple of 16,368 elements, V", 16_368));
    cases.push(long_tuple("a tuple of 32,753 elements, V", 32_753));
    cases
}

/// Each at the size that 256 types have room for, and at that of 512.
fn identity_cases() -> Vec<Case> {
    let nests = [
        Nest {
            types: 256,
            tuples: 24,
            entries: 250,
            pairs: "38,256",
        },
        Nest {
            types: 512,
            tuples: 44,
            entries: 225,
            pairs: "150,290",
        },
    ];
    let mut cases: Vec<Case> = [16, TOWER].into_iter().flat_map(towers).collect();
    let high = [85, 170].into_iter().flat_map(towers);
    cases.extend(high.map(Case::without_goscript));
    cases.extend([[42, 43], [84, 85]].map(rings));
    cases.extend(
        nests
            .iter()
            .map(|nest| nested_pairs(nest).without_goscript()),
    );
    cases.extend(long_structs());
    cases
}

/// Those of a size likewise.
fn member_cases() -> Vec<Case> {
    let mut cases = Vec::new();
    cases.extend([255, 511].into_iter().flat_map(chain));
    cases.extend([64, 128].into_iter().flat_map(lattice));
    cases.extend(wide());
    cases.push(wide_diamond());
    cases.push(one_receiver());
    cases.extend([252, 500].map(wide_methods));
    cases.push(deep_methods());
    cases
}

fn random_cases() -> [Case; 3] {
    [
        random_text("random table of 40 to 120 types", &Shape::middle()),
        random_text("random table of 256 types", &Shape::large()),
        random_text("random table of 512 types", &Shape::largest()),
    ]
}

/// The most levels of a tower that goscript climbs within seconds.
const TOWER: usize = 24;

fn field(name: impl Into<String>, typ: usize, embedded: bool) -> Member {
    Member {
        name: name.into(),
        package: None,
        typ,
        mark: embedded,
        tag: None,
    }
}

fn method(name: impl Into<String>, func: usize) -> Member {
    field(name, func, false)
}

impl Table {
    /// Adds a type with these members and gives its number.
    fn put(&mut self, kind: Kind, members: impl IntoIterator<Item = Member>) -> usize {
        self.add_type(kind);
        for member in members {
            self.add_member(member);
        }
        self.types.len() - 1
    }

    /// Adds a struct with these fields and gives its number.
    fn put_struct(&mut self, fields: impl IntoIterator<Item = Member>) -> usize {
        self.put(Kind::Struct, fields)
    }
}

/// The table that document 01 prints.
fn worked() -> Case {
    let mut table = Table::default();
    table.packages.push("office/cat".to_owned());
    let int = table.put(Kind::Basic(2), []);
    let none = table.put(Kind::Tuple(Vec::new()), []);
    let func = table.put(Kind::Func(false, none, none), []);
    let close = Member {
        package: Some(0),
        mark: true,
        ..method("Close", func)
    };
    let block = table.put(Kind::Named(4), [close]);
    table.put_struct([field("Len", int, false)]);
    let pointer = table.put(Kind::Pointer(block), []);
    let cat = table.put_struct([field("Block", pointer, true)]);
    let named = table.put(Kind::Named(cat), []);
    let question = format!("S\t{named}\t0\t0\tClose");
    Case::new("document 01's table", &table, vec![question])
}

/// A random table of this shape and a hundred random questions.
fn random_text(name: &str, shape: &Shape) -> Case {
    let mut prng = Prng::new(1);
    let table = random::table(&mut prng, shape);
    let questions = random::questions(&mut prng, &table, 100);
    Case::new(name, &table, questions)
}
