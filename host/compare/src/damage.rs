//! Damage to table texts and questions, and texts that are damaged from the start.

use crate::bounds;
use crate::prng::Prng;
use crate::table::{Kind, Table};
use std::ops::Range;

/// Numbers at the edges of what is taken.
const NUMBERS: [&str; 24] = [
    "0",
    "1",
    "2",
    "3",
    "27",
    "28",
    "63",
    "64",
    "255",
    "256",
    "511",
    "512",
    "1023",
    "2047",
    "2048",
    "9999",
    "10000",
    "65535",
    "65536",
    "00",
    "01",
    "-1",
    "4294967295",
    "4294967296",
];

/// What may stand as a field or a line.
const FIELDS: [&str; 30] = [
    "P", "T", "F", "M", "S", "N", "I", "C", "V", "Q", "basic", "array", "slice", "pointer", "map",
    "chan", "tuple", "func", "struct", "iface", "named", "-", "_", "X", "x", "Open", "0x", "", " ",
    "é",
];

/// Damages a text once.
pub fn damage(prng: &mut Prng, text: &mut Vec<u8>) {
    if prng.chance(1) {
        multiply_line(prng, text);
        return;
    }
    match prng.below(12) {
        0 => change_byte(prng, text),
        1 => {
            let at = prng.below(text.len() + 1);
            text.insert(at, any_byte(prng));
        }
        2 => remove(prng, text, |_| 1),
        3 => text.truncate(prng.below(text.len() + 1)),
        4 => swap_lines(prng, text),
        5 => repeat_line(prng, text),
        6 => {
            let line = line(prng);
            insert_line(prng, text, &line);
        }
        7 => remove(prng, text, |prng| 1 + prng.below(40)),
        8 => {
            let field = FIELDS[prng.below(FIELDS.len())];
            change_field(prng, text, field);
        }
        _ => {
            let number = number(prng);
            change_field(prng, text, &number);
        }
    }
}

/// A text that was never a table: lines of right and wrong forms, or bytes.
pub fn soup(prng: &mut Prng) -> Vec<u8> {
    let mut text = Vec::new();
    if prng.chance(90) {
        text.extend(b"typetable\t1\n");
    }
    for _ in 0..prng.below(30) {
        if prng.chance(95) {
            text.extend(line(prng).into_bytes());
        } else {
            text.extend((0..prng.below(20)).map(|_| any_byte(prng)));
        }
    }
    text
}

/// A line that is mostly of a right form, with any numbers.
fn line(prng: &mut Prng) -> String {
    let n = |prng: &mut Prng| number(prng);
    match prng.below(16) {
        0 => format!("P\t{}\n", FIELDS[prng.below(FIELDS.len())]),
        1 => format!("T\tbasic\t{}\n", n(prng)),
        2 => format!("T\tarray\t{}\t{}\n", n(prng), n(prng)),
        3 => format!("T\tslice\t{}\n", n(prng)),
        4 => format!("T\tpointer\t{}\n", n(prng)),
        5 => format!("T\tmap\t{}\t{}\n", n(prng), n(prng)),
        6 => format!("T\tchan\t{}\t{}\n", prng.below(4), n(prng)),
        7 => "T\ttuple\n".to_owned(),
        8 => format!("T\ttuple\t{}\t{}\n", n(prng), n(prng)),
        9 => format!("T\tfunc\t{}\t{}\t{}\n", prng.below(3), n(prng), n(prng)),
        10 | 11 => "T\tstruct\n".to_owned(),
        12 => "T\tiface\n".to_owned(),
        13 => format!("T\tnamed\t{}\n", n(prng)),
        14 => format!("F\t{}\t-\t{}\t{}\n", name(prng), n(prng), prng.below(2)),
        _ => format!("M\t{}\t-\t{}\t{}\n", name(prng), n(prng), prng.below(2)),
    }
}

/// A question of any letter with any fields.
pub fn question(prng: &mut Prng) -> Vec<u8> {
    let letter = ["S", "M", "N", "I", "C", "V", "X", ""][prng.below(8)];
    let mut text = letter.to_owned();
    for _ in 0..prng.below(6) {
        text.push('\t');
        text += &match prng.below(3) {
            0 => name(prng),
            1 => FIELDS[prng.below(FIELDS.len())].to_owned(),
            _ => number(prng),
        };
    }
    text.into_bytes()
}

fn name(prng: &mut Prng) -> String {
    match prng.below(20) {
        0 => "N".repeat(63 + prng.below(3)),
        n => FIELDS[18 + n % 10].to_owned(),
    }
}

/// A number that is mostly small.
fn number(prng: &mut Prng) -> String {
    if prng.chance(85) {
        return prng.below(14).to_string();
    }
    NUMBERS[prng.below(NUMBERS.len())].to_owned()
}

/// A byte that means something, or any byte.
fn any_byte(prng: &mut Prng) -> u8 {
    let known = b"\t\n\r 01289PTFMQ_-aZ~\x7f\x00\xff";
    match prng.pick(known) {
        Some(&byte) if prng.chance(80) => byte,
        _ => prng.below(256) as u8,
    }
}

fn change_byte(prng: &mut Prng, text: &mut [u8]) {
    if !text.is_empty() {
        let at = prng.below(text.len());
        text[at] = any_byte(prng);
    }
}

/// Removes so many bytes from some place on.
fn remove(prng: &mut Prng, text: &mut Vec<u8>, count: impl Fn(&mut Prng) -> usize) {
    let start = prng.below(text.len() + 1);
    let end = text.len().min(start + count(prng));
    text.drain(start..end);
}

/// The lines of a text, each with its newline.
fn lines(text: &[u8]) -> Vec<Vec<u8>> {
    let lines = text.split_inclusive(|&b| b == b'\n');
    lines.map(<[u8]>::to_vec).collect()
}

fn swap_lines(prng: &mut Prng, text: &mut Vec<u8>) {
    let mut lines = lines(text);
    if !lines.is_empty() {
        let (a, b) = (prng.below(lines.len()), prng.below(lines.len()));
        lines.swap(a, b);
        *text = lines.concat();
    }
}

fn repeat_line(prng: &mut Prng, text: &mut Vec<u8>) {
    let lines = lines(text);
    if let Some(line) = prng.pick(&lines) {
        let line = String::from_utf8_lossy(line).into_owned();
        insert_line(prng, text, &line);
    }
}

/// Puts the packages of a text that has any out of order: swaps two P lines, puts one in the place of another, or repeats
/// one, there or elsewhere.
pub fn disorder(prng: &mut Prng, text: &mut Vec<u8>) {
    let mut lines = lines(text);
    let is_package = |n: &usize| lines[*n].starts_with(b"P\t");
    let packages: Vec<usize> = (0..lines.len()).filter(is_package).collect();
    let (Some(&a), Some(&b)) = (prng.pick(&packages), prng.pick(&packages)) else {
        return;
    };
    let copy = lines[b].clone();
    match prng.below(3) {
        0 if a != b => lines.swap(a, b),
        1 if a != b => lines[a] = copy,
        _ => lines.insert(a, copy),
    }
    *text = lines.concat();
}

/// Repeats a line until there are more of it than a table may have, or nearly.
fn multiply_line(prng: &mut Prng, text: &mut Vec<u8>) {
    let mut lines = lines(text);
    if lines.is_empty() {
        return;
    }
    let at = prng.below(lines.len());
    let times = [
        bounds::PACKAGES - 2,
        bounds::TYPES - 6,
        bounds::MEMBERS - 4,
        bounds::TEXT / 11,
    ][prng.below(4)]
        + prng.below(10);
    let copies = vec![lines[at].clone(); times];
    lines.splice(at..at, copies);
    *text = lines.concat();
}

fn insert_line(prng: &mut Prng, text: &mut Vec<u8>, line: &str) {
    let mut lines = lines(text);
    let at = prng.below(lines.len() + 1);
    lines.insert(at, line.as_bytes().to_vec());
    *text = lines.concat();
}

/// Puts something else in the place of a field.
fn change_field(prng: &mut Prng, text: &mut Vec<u8>, field: &str) {
    let parts = |b: &u8| *b == b'\t' || *b == b'\n';
    let start = prng.below(text.len() + 1);
    let start = text[start..]
        .iter()
        .position(parts)
        .map_or(text.len(), |n| start + n + 1);
    let rest = text[start..].iter().position(parts);
    let end = rest.map_or(text.len(), |n| start + n);
    text.splice(start..end, field.bytes());
}

/// Changes what a line of a table refers to, or which members a type has; the lines keep their right forms.
pub fn misdirect(prng: &mut Prng, table: &mut Table) {
    let types = table.types.len();
    let beyond = usize::from(prng.chance(5));
    let to = prng.below(types + beyond);
    let has_members = |t: &usize| !table.types[*t].members.is_empty();
    let with_members: Vec<usize> = (0..types).filter(has_members).collect();
    match prng.pick(&with_members) {
        Some(&t) if prng.chance(70) => change_member(prng, table, t, to),
        _ => {
            let typ = &mut table.types[prng.below(types)];
            typ.kind = redirected(prng, &typ.kind, to);
        }
    }
}

/// Changes a member of a type that has some, or puts another in its place.
fn change_member(prng: &mut Prng, table: &mut Table, t: usize, to: usize) {
    let range = table.types[t].members.clone();
    let m = range.start + prng.below(range.len());
    let other = range.start + prng.below(range.len());
    match prng.below(8) {
        0 => table.members[m].typ = to,
        1 => table.members[m].typ = holder(prng, table, t).unwrap_or(to),
        2 => table.members[m].mark ^= true,
        3 => table.members[m].package = prng.below(table.packages.len() + 2).checked_sub(1),
        4 => table.members.swap(m, other),
        5 => table.members[m] = table.members[other].clone(),
        6 => {
            if let Kind::Named(u) = table.types[t].kind {
                let fields = table.types.get(u).map_or(0..0, |t| t.members.clone());
                rename(prng, table, m, fields);
            }
        }
        _ => rename(prng, table, m, 0..table.members.len()),
    }
}

/// A type that has `t` in it.
fn holder(prng: &mut Prng, table: &Table, t: usize) -> Option<usize> {
    let holds = |e: &usize| match table.types[*e].kind {
        Kind::Named(u) | Kind::Array(_, u) => u == t,
        Kind::Struct => table.members_of(*e).iter().any(|m| m.typ == t),
        _ => false,
    };
    let found: Vec<usize> = (0..table.types.len()).filter(holds).collect();
    prng.pick(&found).copied()
}

/// Gives a member the name and the package of one of these, if there are any.
fn rename(prng: &mut Prng, table: &mut Table, m: usize, from: Range<usize>) {
    if !from.is_empty() {
        let other = table.members[from.start + prng.below(from.len())].clone();
        table.members[m].name = other.name;
        table.members[m].package = other.package;
    }
}

/// A kind with one of its references changed.
fn redirected(prng: &mut Prng, kind: &Kind, to: usize) -> Kind {
    let first = prng.chance(50);
    match *kind {
        Kind::Array(n, _) => Kind::Array(n, to),
        Kind::Slice(_) => Kind::Slice(to),
        Kind::Pointer(_) => Kind::Pointer(to),
        Kind::Map(_, e) if first => Kind::Map(to, e),
        Kind::Map(k, _) => Kind::Map(k, to),
        Kind::Chan(d, _) => Kind::Chan(d, to),
        Kind::Func(v, _, r) if first => Kind::Func(v, to, r),
        Kind::Func(v, p, r) => Kind::Func(!v, p, r),
        Kind::Named(_) => Kind::Named(to),
        Kind::Tuple(ref elements) => {
            let kept = elements.iter().copied().skip(1);
            Kind::Tuple(kept.chain([to]).collect())
        }
        Kind::Basic(_) | Kind::Struct | Kind::Iface => kind.clone(),
    }
}
