//! Tables that are hard on S and M.

use super::{field, method, Case};
use crate::bounds;
use crate::table::{Kind, Member, Table};

/// So many structs, each embedded in the next, with a field in the first.
pub fn chain(structs: usize) -> [Case; 2] {
    let mut table = Table::default();
    let int = table.put(Kind::Basic(2), []);
    let first = table.put_struct([field("X", int, false)]);
    let last = (1..structs).fold(first, |below, _| {
        table.put_struct([field("E", below, true)])
    });
    let name = format!("chain of {structs} structs");
    select_and_list(&name, &table, last, "X")
}

/// So many levels of two structs, each of which embeds both of the level below.
pub fn lattice(levels: usize) -> [Case; 2] {
    let names = [["A", "B"], ["C", "D"]];
    let mut table = Table::default();
    let int = table.put(Kind::Basic(2), []);
    let mut below =
        names.map(|[name, _]| table.put_struct([field("X", int, false), field(name, int, false)]));
    for _ in 0..levels {
        below = names.map(|[left, right]| {
            table.put_struct([field(left, below[0], true), field(right, below[1], true)])
        });
    }
    let name = format!("lattice of {levels} levels");
    select_and_list(&name, &table, below[0], "X")
}

/// The question S for a member of a type, and the question M.
fn select_and_list(name: &str, table: &Table, t: usize, member: &str) -> [Case; 2] {
    let case = |letter, question| Case::new(format!("{name}, {letter}"), table, vec![question]);
    [
        case("S", format!("S\t{t}\t0\t-\t{member}")),
        case("M", format!("M\t{t}")),
    ]
}

/// One struct with 255 embedded fields, of 253 types.
pub fn wide() -> [Case; 2] {
    let mut table = Table::default();
    let int = table.put(Kind::Basic(2), []);
    let types: Vec<usize> = (0..253)
        .map(|k| table.put_struct([field(format!("F{k}"), int, false)]))
        .collect();
    let fields: Vec<Member> = (0..255)
        .map(|k| field(format!("E{k}"), types[k % types.len()], true))
        .collect();
    let top = table.put_struct(fields);
    select_and_list("255 embedded fields", &table, top, "F252")
}

/// One struct that embeds two, each of which embeds the same 120 types: a member of the last of these is ambiguous.
pub fn wide_diamond() -> Case {
    let mut table = Table::default();
    let int = table.put(Kind::Basic(2), []);
    let types: Vec<usize> = (0..120)
        .map(|k| table.put_struct([field(format!("F{k}"), int, false)]))
        .collect();
    let mut side = || {
        let embedded = types.iter().map(|&t| field(format!("E{t}"), t, true));
        table.put_struct(embedded)
    };
    let (one, other) = (side(), side());
    let top = table.put_struct([field("L", one, true), field("R", other, true)]);
    let question = format!("S\t{top}\t0\t-\tF119");
    Case::new("wide diamond over 120 types, S", &table, vec![question])
}

/// 900 selections from one receiver that embeds four structs of 224 fields.
pub fn one_receiver() -> Case {
    let mut table = Table::default();
    table.packages.push("office/cat".to_owned());
    let int = table.put(Kind::Basic(2), []);
    let member = |name: String, typ, embedded| Member {
        package: Some(0),
        ..field(name, typ, embedded)
    };
    let mut names: Vec<String> = (0..4).map(|k| format!("Part{k}")).collect();
    names.extend((0..4 * 224).map(|k| format!("field{k}")));
    let parts: Vec<usize> = names[4..]
        .chunks(224)
        .map(|chunk| table.put_struct(chunk.iter().map(|name| member(name.clone(), int, false))))
        .collect();
    let embedded: Vec<Member> = (0..4)
        .map(|k| member(names[k].clone(), parts[k], true))
        .collect();
    let receiver = table.put_struct(embedded);
    let questions = names
        .iter()
        .map(|name| format!("S\t{receiver}\t0\t0\t{name}"))
        .collect();
    Case::new("900 S on one receiver", &table, questions)
}

/// A struct that embeds so many named types of three methods each, all of which its set has: itself, or through a struct
/// for each 250 or so where one has no room for so many fields.
pub fn wide_methods(count: usize) -> Case {
    let mut table = Table::default();
    let none = table.put(Kind::Tuple(Vec::new()), []);
    let func = table.put(Kind::Func(false, none, none), []);
    let empty = table.put_struct([]);
    let mut embedded: Vec<usize> = (0..count)
        .map(|k| {
            let methods = (0..3).map(|n| method(format!("M{}", 3 * k + n), func));
            table.put(Kind::Named(empty), methods)
        })
        .collect();
    while embedded.len() > 1 {
        let structs = embedded.len().div_ceil(bounds::MEMBERS_OF_ONE);
        embedded = embedded
            .chunks(embedded.len().div_ceil(structs))
            .map(|types| table.put_struct(types.iter().map(|&t| field(format!("E{t}"), t, true))))
            .collect();
    }
    let name = format!("{} methods of {count} embedded types, M", 3 * count);
    Case::new(name, &table, vec![format!("M\t{}", embedded[0])])
}

/// 127 named types, each embedded in the next, with seven methods each that hide those below.
pub fn deep_methods() -> Case {
    let mut table = Table::default();
    let none = table.put(Kind::Tuple(Vec::new()), []);
    let func = table.put(Kind::Func(false, none, none), []);
    let methods = || (0..7).map(|n| method(format!("M{n}"), func));
    let empty = table.put_struct([]);
    let first = table.put(Kind::Named(empty), methods());
    let top = (1..127).fold(first, |below, _| {
        let holder = table.put_struct([field("E", below, true)]);
        table.put(Kind::Named(holder), methods())
    });
    let question = format!("M\t{top}");
    Case::new(
        "chain of 127 named types of 7 methods, M",
        &table,
        vec![question],
    )
}
