//! Refusals 14 and 7 to 10, in this order, each over the whole text before the next.

use super::{Read, Refused};
use crate::table::{Kind, Member, Table};

/// The first refusal of 14 and 7 to 10 that a text earns.
pub fn keep(read: &Read) -> Result<(), Refused> {
    let table = &read.table;
    ascend(&table.packages)?;
    first(7, read, |t| has_parts(table, t), |_, m| has(table, m))?;
    let refers = |t, m: usize| member_refers(table, t, &table.members[m]);
    first(8, read, |t| type_refers(table, t), refers)?;
    let ids: Vec<String> = table
        .members
        .iter()
        .map(|m| m.id(&table.packages))
        .collect();
    first(9, read, |_| true, |t, m| is_distinct(table, &ids, t, m))?;
    first(10, read, |t| !is_on_cycle(table, t), |_, _| true)
}

/// "P lines must come in strictly ascending order of the bytes of their paths": 14 "at the first line that fails to
/// ascend". No other line stands before a P line but the first line of the text.
fn ascend(paths: &[String]) -> Result<(), Refused> {
    for p in 1..paths.len() {
        if paths[p].as_bytes() <= paths[p - 1].as_bytes() {
            let line = p + 2;
            return Err(Refused { number: 14, line });
        }
    }
    Ok(())
}

/// The refusal of the first line that breaks a rule: on the types, and on the members with their types.
fn first(
    number: u8,
    read: &Read,
    type_holds: impl Fn(usize) -> bool,
    member_holds: impl Fn(usize, usize) -> bool,
) -> Result<(), Refused> {
    for (t, typ) in read.table.types.iter().enumerate() {
        if !type_holds(t) {
            let line = read.type_lines[t];
            return Err(Refused { number, line });
        }
        if let Some(m) = typ.members.clone().find(|&m| !member_holds(t, m)) {
            let line = read.member_lines[m];
            return Err(Refused { number, line });
        }
    }
    Ok(())
}

/// The types that a T line refers to.
fn parts(kind: &Kind) -> Vec<usize> {
    match kind {
        Kind::Basic(_) | Kind::Struct | Kind::Iface => Vec::new(),
        Kind::Array(_, e) | Kind::Slice(e) | Kind::Pointer(e) | Kind::Chan(_, e) => vec![*e],
        Kind::Map(a, b) | Kind::Func(_, a, b) => vec![*a, *b],
        Kind::Tuple(elements) => elements.clone(),
        Kind::Named(u) => vec![*u],
    }
}

fn has_parts(table: &Table, t: usize) -> bool {
    let there = |&e: &usize| e < table.types.len();
    parts(&table.types[t].kind).iter().all(there)
}

fn has(table: &Table, m: usize) -> bool {
    let member = &table.members[m];
    let package = member.package.is_none_or(|p| p < table.packages.len());
    package && member.typ < table.types.len()
}

fn type_refers(table: &Table, t: usize) -> bool {
    let kind = |e: usize| &table.types[e].kind;
    let is_tuple = |e: usize| matches!(kind(e), Kind::Tuple(_));
    match *kind(t) {
        Kind::Func(variadic, p, r) => {
            let ends_in_slice = |p: usize| match kind(p) {
                Kind::Tuple(elements) => elements
                    .last()
                    .is_some_and(|&e| matches!(kind(e), Kind::Slice(_))),
                _ => false,
            };
            [p, r].iter().all(|&e| e < t && is_tuple(e)) && (!variadic || ends_in_slice(p))
        }
        Kind::Named(u) => !matches!(kind(u), Kind::Named(_) | Kind::Tuple(_)),
        ref other => parts(other).iter().all(|&e| is_behind(table, t, e)),
    }
}

/// Refers to no tuple, and to a smaller number unless the target is named or an interface.
fn is_behind(table: &Table, t: usize, e: usize) -> bool {
    match table.types[e].kind {
        Kind::Tuple(_) => false,
        Kind::Named(_) | Kind::Iface => true,
        _ => e < t,
    }
}

fn member_refers(table: &Table, t: usize, member: &Member) -> bool {
    let kind = |e: usize| &table.types[e].kind;
    let is_func = matches!(kind(member.typ), Kind::Func(..));
    match *kind(t) {
        Kind::Struct => {
            is_behind(table, t, member.typ) && (!member.mark || may_embed(table, member.typ))
        }
        Kind::Named(u) => is_func && !matches!(kind(u), Kind::Pointer(_) | Kind::Iface),
        _ => is_func && !member.mark,
    }
}

fn may_embed(table: &Table, t: usize) -> bool {
    let under = |t: usize| match table.types[t].kind {
        Kind::Named(u) => u,
        _ => t,
    };
    let ends_in = |t: usize| &table.types[under(t)].kind;
    match table.types[t].kind {
        Kind::Named(_) => !matches!(ends_in(t), Kind::Pointer(_)),
        Kind::Pointer(e) => !matches!(ends_in(e), Kind::Pointer(_) | Kind::Iface),
        _ => true,
    }
}

/// No earlier member of the type has this one's id, no field of the struct that a named type stands for has
/// it, and an interface's methods ascend.
fn is_distinct(table: &Table, ids: &[String], t: usize, m: usize) -> bool {
    let typ = &table.types[t];
    let above = &ids[typ.members.start..m];
    let fields = match typ.kind {
        Kind::Named(u) => &ids[table.types[u].members.clone()],
        _ => &[],
    };
    let ascends = above.last().is_none_or(|last| *last < ids[m]);
    table.members[m].name == "_"
        || !above.contains(&ids[m])
            && !fields.contains(&ids[m])
            && (typ.kind != Kind::Iface || ascends)
}

/// Whether a type contains itself by value.
fn is_on_cycle(table: &Table, t: usize) -> bool {
    let mut seen = vec![false; table.types.len()];
    let mut left = contents(table, t);
    while let Some(e) = left.pop() {
        if e == t {
            return true;
        }
        if !seen[e] {
            seen[e] = true;
            left.extend(contents(table, e));
        }
    }
    false
}

/// "through array elements, fields and a named type's u".
fn contents(table: &Table, t: usize) -> Vec<usize> {
    match table.types[t].kind {
        Kind::Array(_, e) | Kind::Named(e) => vec![e],
        Kind::Struct => table.members_of(t).iter().map(|m| m.typ).collect(),
        _ => Vec::new(),
    }
}
