//! The words of C: the first part of a type whose values cannot be compared.

use super::contents::{Contents, Kind};
use crate::Type;
use std::collections::HashSet;

pub fn words(contents: &Contents, of: Type, comparable: bool) -> String {
    if comparable {
        return format!("values of type {of} can be compared\n");
    }
    let part = part(contents, of, &mut HashSet::new());
    let (way, what) = part.expect("a type that cannot be compared has such a part");
    let way = if way.is_empty() { "it" } else { &way };
    format!("values of type {of} cannot be compared: {way} is {what}\n")
}

/// The way to the first part that cannot be compared, and what it is. `seen` are types that have none, so that each is
/// gone through once, however often it lies within others.
fn part(contents: &Contents, of: Type, seen: &mut HashSet<Type>) -> Option<(String, &'static str)> {
    let what = match contents.kind(of) {
        Kind::Slice => "a slice",
        Kind::Map => "a map",
        Kind::Func => "a func",
        Kind::Tuple => "a tuple",
        Kind::Basic(UNTYPED_NIL) => "untyped nil",
        _ if seen.contains(&of) => return None,
        _ => {
            let within = part_within(contents, of, seen);
            if within.is_none() {
                seen.insert(of);
            }
            return within;
        }
    };
    Some((String::new(), what))
}

const UNTYPED_NIL: u16 = 25;

/// The same of the types that lie within a type by value.
fn part_within(
    contents: &Contents,
    of: Type,
    seen: &mut HashSet<Type>,
) -> Option<(String, &'static str)> {
    match contents.kind(of) {
        Kind::Named(underlying) => part(contents, underlying, seen),
        Kind::Array(element) => {
            let (way, what) = part(contents, element, seen)?;
            Some((format!("[i]{way}"), what))
        }
        Kind::Struct => contents.members(of).iter().find_map(|field| {
            let (way, what) = part(contents, field.of, seen)?;
            Some((format!(".{}{way}", field.name), what))
        }),
        _ => None,
    }
}
