//! Random tables that load, and questions on them, from a seed alone. They are rich in diamonds, identical
//! unnamed types, recursive interfaces, and names across packages, exported and not.

mod maker;
mod members;

use crate::bounds;
use crate::prng::Prng;
use crate::table::{Kind, Member, Table};
use maker::Maker;
use std::collections::BTreeSet;
use std::mem::discriminant;

/// How large a table may become.
pub struct Shape {
    pub packages: usize,
    /// The fewest types, at least three, and the most.
    pub least_types: usize,
    pub types: usize,
    /// The most members of one type, and of all.
    pub members: usize,
    pub all_members: usize,
    /// The most bytes of the text.
    pub bytes: usize,
    /// Whether names have up to 36 bytes, or five.
    pub long_names: bool,
}

impl Shape {
    /// A table of so few types that every question can be asked.
    pub fn tiny() -> Shape {
        Shape {
            packages: 2,
            least_types: 3,
            types: 10,
            members: 4,
            all_members: bounds::MEMBERS,
            bytes: 2_048,
            long_names: false,
        }
    }

    /// A table of few types.
    pub fn small() -> Shape {
        Shape {
            packages: 3,
            least_types: 3,
            types: 40,
            members: 5,
            all_members: bounds::MEMBERS,
            bytes: 8_192,
            long_names: false,
        }
    }

    /// A table of some depth.
    pub fn middle() -> Shape {
        Shape {
            packages: 4,
            least_types: 40,
            types: 120,
            members: 6,
            all_members: bounds::MEMBERS,
            bytes: 16_384,
            long_names: false,
        }
    }

    /// A table as large as the papers allowed before point 4 of document 02.
    pub fn large() -> Shape {
        Shape {
            packages: bounds::PACKAGES,
            least_types: 256,
            types: 256,
            members: 24,
            all_members: 1_024,
            bytes: 32_768,
            long_names: true,
        }
    }

    /// A table as large as they allow.
    pub fn largest() -> Shape {
        Shape {
            least_types: bounds::TYPES,
            types: bounds::TYPES,
            all_members: bounds::MEMBERS,
            bytes: bounds::TEXT,
            ..Shape::large()
        }
    }
}

/// A table that loads, of at most this shape.
pub fn table(prng: &mut Prng, shape: &Shape) -> Table {
    let mut maker = Maker::new(prng, shape);
    maker.packages();
    maker.plan();
    maker.types();
    maker.members();
    maker.table()
}

/// So many questions S, M, N, I and C of the right form on a table that has a type.
pub fn questions(prng: &mut Prng, table: &Table, count: usize) -> Vec<String> {
    (0..count).map(|_| question(prng, table)).collect()
}

/// Every question S, M, N, I and C on a table; S for every name that it has, and one that it has not.
pub fn all_questions(table: &Table) -> Vec<String> {
    let types = 0..table.types.len();
    let names: BTreeSet<&str> = table.members.iter().map(|m| &*m.name).collect();
    let packages: Vec<String> = (0..table.packages.len()).map(|p| p.to_string()).collect();
    let mut questions = Vec::new();
    for t in types.clone() {
        questions.extend([format!("M\t{t}"), format!("C\t{t}")]);
        questions.extend(types.clone().map(|y| format!("I\t{t}\t{y}")));
        for i in types
            .clone()
            .filter(|&i| table.types[i].kind == Kind::Iface)
        {
            questions.extend([0, 1].map(|s| format!("N\t{t}\t{i}\t{s}")));
        }
        for name in names.iter().chain(&["Zero"]) {
            for package in packages.iter().map(|p| &**p).chain(["-"]) {
                questions.extend([0, 1].map(|a| format!("S\t{t}\t{a}\t{package}\t{name}")));
            }
        }
    }
    questions
}

fn question(prng: &mut Prng, table: &Table) -> String {
    let t = prng.below(table.types.len());
    match prng.below(10) {
        0..=3 => selection(prng, table),
        4 | 5 => format!("M\t{t}"),
        6 => format!("C\t{t}"),
        7 | 8 => {
            let i = like(prng, table, &Kind::Iface);
            let strict = prng.below(2);
            i.map_or(format!("C\t{t}"), |i| format!("N\t{t}\t{i}\t{strict}"))
        }
        _ => {
            let other = like(prng, table, &table.types[t].kind).unwrap_or(t);
            format!("I\t{t}\t{other}")
        }
    }
}

/// `S` for a member that some way from the receiver ends in, mostly seen from its own package.
fn selection(prng: &mut Prng, table: &Table) -> String {
    let mut t = 0;
    let mut found = None;
    for _ in 0..4 {
        if found.is_none() {
            t = prng.below(table.types.len());
            found = way(prng, table, t);
        }
    }
    let (name, own) = found.map_or(("Open", None), |m| (&m.name, m.package));
    let other = prng.below(table.packages.len() + 1).checked_sub(1);
    let package = if prng.chance(75) { own } else { other };
    let package = package.map_or("-".to_owned(), |p| p.to_string());
    format!("S\t{t}\t{}\t{package}\t{name}", prng.below(2))
}

/// The member that a random way from a type ends in, if it ends before long.
fn way<'a>(prng: &mut Prng, table: &'a Table, from: usize) -> Option<&'a Member> {
    let mut t = from;
    for _ in 0..16 {
        if let Kind::Pointer(e) = table.types[t].kind {
            t = e;
        }
        let mut members: Vec<&Member> = table.members_of(t).iter().collect();
        if let Kind::Named(u) = table.types[t].kind {
            members.extend(table.members_of(u));
        }
        let member = *prng.pick(&members)?;
        if !member.mark || prng.chance(25) {
            return Some(member);
        }
        t = member.typ;
    }
    None
}

/// A type of the same kind.
fn like(prng: &mut Prng, table: &Table, kind: &Kind) -> Option<usize> {
    let same = |t: &usize| discriminant(&table.types[*t].kind) == discriminant(kind);
    let found: Vec<usize> = (0..table.types.len()).filter(same).collect();
    prng.pick(&found).copied()
}
