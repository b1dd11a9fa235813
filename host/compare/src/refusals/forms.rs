//! The forms of lines and questions: refusals 4 and 11.

use crate::bounds;
use crate::table::{Kind, Member, Table};

/// A line of the right form.
pub enum Line {
    Package(String),
    Type(Kind),
    Field(Member),
    Method(Member),
}

/// The line that these bytes, without their newline, are the form of.
pub fn line(bytes: &[u8]) -> Option<Line> {
    let fields: Vec<&[u8]> = bytes.split(|&b| b == b'\t').collect();
    match fields[..] {
        [b"P", path] => Some(Line::Package(package_path(path)?)),
        [b"T", word, ref rest @ ..] => Some(Line::Type(kind(word, rest)?)),
        [b"F", name, pkg, typ, emb] => Some(Line::Field(member(name, pkg, typ, emb, None)?)),
        [b"F", name, pkg, typ, emb, tag] => {
            Some(Line::Field(member(name, pkg, typ, emb, Some(tag))?))
        }
        [b"M", name, pkg, sig, ptr] if name != b"_" => {
            Some(Line::Method(member(name, pkg, sig, ptr, None)?))
        }
        _ => None,
    }
}

/// "1 to 128 bytes of 33 to 126, not `_` alone".
fn package_path(field: &[u8]) -> Option<String> {
    if field == b"_" {
        return None;
    }
    graphic(field, 33)
}

/// 1 to 128 bytes, from this one up to 126.
fn graphic(field: &[u8], least: u8) -> Option<String> {
    let right = (1..=128).contains(&field.len()) && field.iter().all(|b| (least..=126).contains(b));
    right.then(|| text(field))
}

fn text(ascii: &[u8]) -> String {
    ascii.iter().map(|&b| char::from(b)).collect()
}

/// What stands behind `T`.
fn kind(word: &[u8], rest: &[&[u8]]) -> Option<Kind> {
    Some(match (word, rest) {
        (b"basic", [k]) => Kind::Basic(number(k, 27)? as usize),
        (b"array", [n, e]) => Kind::Array(number(n, 4_294_967_295)?, reference(e)?),
        (b"slice", [e]) => Kind::Slice(reference(e)?),
        (b"pointer", [e]) => Kind::Pointer(reference(e)?),
        (b"map", [k, e]) => Kind::Map(reference(k)?, reference(e)?),
        (b"chan", [d, e]) => Kind::Chan(number(d, 2)? as usize, reference(e)?),
        (b"tuple", elements) => Kind::Tuple(
            elements
                .iter()
                .map(|e| reference(e))
                .collect::<Option<_>>()?,
        ),
        (b"func", [v, p, r]) => Kind::Func(mark(v)?, reference(p)?, reference(r)?),
        (b"struct", []) => Kind::Struct,
        (b"iface", []) => Kind::Iface,
        (b"named", [u]) => Kind::Named(reference(u)?),
        _ => return None,
    })
}

fn member(name: &[u8], pkg: &[u8], typ: &[u8], m: &[u8], tag: Option<&[u8]>) -> Option<Member> {
    Some(Member {
        name: member_name(name)?,
        package: package(pkg)?,
        typ: reference(typ)?,
        mark: mark(m)?,
        tag: match tag {
            Some(tag) => Some(graphic(tag, 32)?),
            None => None,
        },
    })
}

/// "1 to 64 ASCII letters, digits and `_`, not starting with a digit".
fn member_name(field: &[u8]) -> Option<String> {
    let word = |&b: &u8| b.is_ascii_alphanumeric() || b == b'_';
    let first = *field.first()?;
    let right = field.len() <= 64 && !first.is_ascii_digit() && field.iter().all(word);
    right.then(|| text(field))
}

/// A package number, or `-` for none.
fn package(field: &[u8]) -> Option<Option<usize>> {
    if field == b"-" {
        return Some(None);
    }
    reference(field).map(Some)
}

/// 0 or 1.
fn mark(field: &[u8]) -> Option<bool> {
    number(field, 1).map(|n| n == 1)
}

/// "A type or package number of more than four digits has a wrong form".
fn reference(field: &[u8]) -> Option<usize> {
    number(field, 9999).map(|n| n as usize)
}

/// "Numbers have no sign and no leading zero".
fn number(field: &[u8], most: u64) -> Option<u64> {
    let right = (1..=10).contains(&field.len())
        && field.iter().all(u8::is_ascii_digit)
        && (field == b"0" || field[0] != b'0');
    if !right {
        return None;
    }
    let n = field.iter().fold(0, |n, b| n * 10 + u64::from(b - b'0'));
    (n <= most).then_some(n)
}

/// Whether a question has the right form and numbers that the table has; of an N question, its second type.
pub fn question(table: &Table, line: &[u8]) -> Option<Option<usize>> {
    if line.len() > bounds::QUESTION {
        return None;
    }
    let fields: Vec<&[u8]> = line.split(|&b| b == b'\t').collect();
    let typ = |field| reference(field).filter(|&t| t < table.types.len());
    match fields[..] {
        [b"S", t, a, pkg, name] => {
            typ(t)?;
            mark(a)?;
            package(pkg)?
                .is_none_or(|p| p < table.packages.len())
                .then_some(())?;
            member_name(name)?;
            Some(None)
        }
        [b"M" | b"C", t] => typ(t).and(Some(None)),
        [b"N", t, i, s] => typ(t).and(mark(s)).and(typ(i)).map(Some),
        [b"I", x, y] => typ(x).and(typ(y)).and(Some(None)),
        [b"V"] => Some(None),
        _ => None,
    }
}
