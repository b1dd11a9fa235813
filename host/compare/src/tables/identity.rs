//! Tables that are hard on the question I, and towers, which are hard on C and S too.

use super::{field, method, Case};
use crate::table::{Kind, Member, Table};

/// Two towers of structs, each with two fields of the type before: judged comparable, compared with one
/// another, and both embedded where a name is looked for.
pub fn towers(levels: usize) -> [Case; 3] {
    let mut table = Table::default();
    let int = table.put(Kind::Basic(2), []);
    let mut tower = || {
        (0..levels).fold(int, |below, _| {
            table.put_struct([field("A", below, false), field("B", below, false)])
        })
    };
    let (one, other) = (tower(), tower());
    let both = table.put_struct([field("L", one, true), field("R", other, true)]);
    let name = format!("two towers of {levels} structs");
    let case = |letter: &str, question: String| {
        Case::new(format!("{name}, {letter}"), &table, vec![question])
    };
    [
        case("C", format!("C\t{one}")),
        case("I", format!("I\t{one}\t{other}")),
        case("S", format!("S\t{both}\t0\t-\tX")),
    ]
}

/// Two rings of interfaces, of these lengths, each with a method that takes the next. Where the lengths have no common factor, as many pairs are met as their
/// product says.
pub fn rings(lengths: [usize; 2]) -> Case {
    let mut table = Table::default();
    let none = table.put(Kind::Tuple(Vec::new()), []);
    let [one, other] = lengths.map(|length| {
        let first = table.types.len();
        for k in 0..length {
            let (iface, next) = (first + 3 * k, first + 3 * ((k + 1) % length));
            table.put(Kind::Iface, [method("M", iface + 2)]);
            table.put(Kind::Tuple(vec![next]), []);
            table.put(Kind::Func(false, iface + 1, none), []);
        }
        first
    });
    let name = format!("rings of {} and {} interfaces, I", lengths[0], lengths[1]);
    Case::new(name, &table, vec![format!("I\t{one}\t{other}")])
}

/// The size of a table of nested pairs.
pub struct Nest {
    pub types: usize,
    /// The tuples of interfaces, and the interfaces in each.
    pub tuples: usize,
    pub entries: usize,
    /// How many pairs of interfaces are then met within one another, where x with y and y with x are two.
    pub pairs: &'static str,
}

/// Interfaces of two methods, whose funcs take one of the tuples.
pub fn nested_pairs(nest: &Nest) -> Case {
    let (tuples, entries) = (nest.tuples, nest.entries);
    let ifaces = nest.types - 2 * tuples - 1;
    let seed = tuples * 1_000_003 + entries * 1_009 + 2;
    let mut state = 88_172_645_463_325_252 ^ seed as u64;
    let mut below = |end: usize| {
        state ^= state << 13;
        state ^= state >> 7;
        state ^= state << 17;
        (state % end as u64) as usize
    };
    let mut table = Table::default();
    for _ in 0..ifaces {
        let funcs = ["A", "B"].map(|name| method(name, ifaces + 1 + tuples + below(tuples)));
        table.put(Kind::Iface, funcs);
    }
    let none = table.put(Kind::Tuple(Vec::new()), []);
    for _ in 0..tuples {
        let taken = (0..entries).map(|_| below(ifaces)).collect();
        table.put(Kind::Tuple(taken), []);
    }
    for tuple in 0..tuples {
        table.put(Kind::Func(false, ifaces + 1 + tuple, none), []);
    }
    let name = format!("{} nested pairs of interfaces, I", nest.pairs);
    Case::new(name, &table, vec!["I\t0\t1".to_owned()])
}

/// Two structs of 255 fields, and pointers to them: the structs differ in the tag of the last field, or in nothing. The types
/// of the fields are a deep type and its twin: whoever looks at types before tags walks the two for each field.
pub fn long_structs() -> [Case; 4] {
    let tag = Some("json");
    let (tagged, structs) = long_twins(pointers, tag);
    let (equal, _) = long_twins(pointers, None);
    let (marked, others) = long_twins(interfaces, tag);
    let case = |name: &str, table: &Table, [x, y]: [usize; 2]| {
        let name = format!("255 fields over {name}, I");
        Case::new(name, table, vec![format!("I\t{x}\t{y}")])
    };
    let behind = |structs: [usize; 2]| structs.map(|number| number + 1);
    [
        case("120 pointers, other last tag", &tagged, structs),
        case(
            "120 pointers, other last tag, behind pointers",
            &tagged,
            behind(structs),
        ),
        case(
            "120 pointers, equal, behind pointers",
            &equal,
            behind(structs),
        ),
        case(
            "40 interfaces, other last tag, behind pointers",
            &marked,
            behind(others),
        ),
    ]
}

/// Adds a deep type and gives its number.
type Deep = fn(&mut Table) -> usize;

/// The table of two structs, each behind a deep type of its own and before a pointer to it, and their numbers. The second
/// has this tag at its last field.
fn long_twins(deep: Deep, tag: Option<&str>) -> (Table, [usize; 2]) {
    let mut table = Table::default();
    let structs = [None, tag].map(|tag| {
        let typ = deep(&mut table);
        let mut fields: Vec<Member> = (0..255)
            .map(|k| field(format!("F{k}"), typ, false))
            .collect();
        fields[254].tag = tag.map(str::to_owned);
        let number = table.put_struct(fields);
        table.put(Kind::Pointer(number), []);
        number
    });
    (table, structs)
}

/// 120 pointers, each to the one before, and the first to a struct.
fn pointers(table: &mut Table) -> usize {
    let first = table.put_struct([]);
    (0..120).fold(first, |below, _| table.put(Kind::Pointer(below), []))
}

/// 40 interfaces, each with a method that takes the one before.
fn interfaces(table: &mut Table) -> usize {
    let none = table.put(Kind::Tuple(Vec::new()), []);
    let first = table.put(Kind::Iface, []);
    (0..40).fold(first, |below, _| {
        let taken = table.put(Kind::Tuple(vec![below]), []);
        let func = table.put(Kind::Func(false, taken, none), []);
        table.put(Kind::Iface, [method("M", func)])
    })
}
