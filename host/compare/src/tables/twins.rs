//! Tables that are hard on tidying: many types of one kind, towers, and interfaces that lead to one another.

use super::{field, method};
use crate::bounds;
use crate::table::{Kind, Table};

/// Each with a name and the number of types that remain.
pub fn untidy() -> Vec<(String, Table, usize)> {
    let many = bounds::TYPES - 1;
    let mut tables = vec![
        distinct_pointers(),
        chains("a chain", 1, many),
        equal_pointers(many),
        structs(many),
    ];
    tables.extend([170, many / 2].map(|height| chains("two chains", 2, height)));
    tables.extend([false, true].map(|differs| ring(bounds::TYPES / 3, differs)));
    tables
}

/// As many pointers as named types that they point to.
fn distinct_pointers() -> (String, Table, usize) {
    let (mut table, int) = with_int();
    let count = (bounds::TYPES - 1) / 2;
    let named: Vec<usize> = (0..count)
        .map(|_| table.put(Kind::Named(int), []))
        .collect();
    named.iter().for_each(|&t| table.add_type(Kind::Pointer(t)));
    let name = format!("{count} pointers to as many named types");
    (name, table, 1 + 2 * count)
}

fn equal_pointers(count: usize) -> (String, Table, usize) {
    let (mut table, int) = with_int();
    (0..count).for_each(|_| table.add_type(Kind::Pointer(int)));
    (format!("{count} pointers to one type"), table, 2)
}

fn structs(count: usize) -> (String, Table, usize) {
    let (mut table, int) = with_int();
    for n in 0..count {
        table.put_struct([field(format!("F{n}"), int, false)]);
    }
    let name = format!("{count} structs of one field, each of another name");
    (name, table, 1 + count)
}

/// Chains of so many pointers, each to the one below, all of them down to one type.
fn chains(what: &str, count: usize, height: usize) -> (String, Table, usize) {
    let (mut table, int) = with_int();
    for _ in 0..count {
        (0..height).fold(int, |below, _| table.put(Kind::Pointer(below), []));
    }
    (format!("{what} of {height} pointers"), table, 1 + height)
}

/// A ring of interfaces, each with a method that takes and gives the next. All are identical, or if the last has a method
/// more, no two.
fn ring(length: usize, differs: bool) -> (String, Table, usize) {
    let mut table = Table::default();
    for k in 0..length {
        let (iface, next) = (3 * k, 3 * ((k + 1) % length));
        let more = differs && k + 1 == length;
        let methods = ["X", "Y"].into_iter().take(1 + usize::from(more));
        table.put(Kind::Iface, methods.map(|name| method(name, iface + 2)));
        table.put(Kind::Tuple(vec![next]), []);
        table.put(Kind::Func(false, iface + 1, iface + 1), []);
    }
    let (how, left) = match differs {
        true => (", one of which differs", 3 * length),
        false => (", all identical", 3),
    };
    (format!("a ring of {length} interfaces{how}"), table, left)
}

fn with_int() -> (Table, usize) {
    let mut table = Table::default();
    let int = table.put(Kind::Basic(2), []);
    (table, int)
}
