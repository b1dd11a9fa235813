//! The refusals 2 to 12 of document 01 and 14 of document 02 with their lines, read off the papers' words: what a table or a
//! question earns. It knows nothing of the library and is slow where that is simpler.

mod forms;
mod rules;

use crate::bounds;
use crate::table::{Kind, Table};
use forms::Line;

/// A refusal's number and line, 0 where none is named.
#[derive(Clone, Copy, Debug, PartialEq, Eq)]
pub struct Refused {
    pub number: u8,
    pub line: usize,
}

const HEADER: &[u8] = b"typetable\t1\n";

/// A table with the lines that its types and members stand on.
struct Read {
    table: Table,
    type_lines: Vec<usize>,
    member_lines: Vec<usize>,
}

/// The table that a text loads to, or the refusal that it earns.
pub fn table(text: &[u8]) -> Result<Table, Refused> {
    if text.len() > bounds::TEXT {
        return Err(Refused { number: 2, line: 0 });
    }
    let Some(rest) = text.strip_prefix(HEADER) else {
        return Err(Refused { number: 3, line: 1 });
    };
    let read = lines(rest)?;
    rules::keep(&read)?;
    Ok(read.table)
}

/// Refusals 4 to 6, in turn on each line.
fn lines(text: &[u8]) -> Result<Read, Refused> {
    let mut read = Read {
        table: Table::default(),
        type_lines: Vec::new(),
        member_lines: Vec::new(),
    };
    for (n, line) in text.split_inclusive(|&b| b == b'\n').enumerate() {
        let number = n + 2;
        let refused = |refusal| Refused {
            number: refusal,
            line: number,
        };
        let line = line.strip_suffix(b"\n").ok_or(refused(4))?;
        let line = forms::line(line).ok_or(refused(4))?;
        if !in_place(&read.table, &line) {
            return Err(refused(5));
        }
        if !has_room(&read.table, &line) {
            return Err(refused(6));
        }
        read.put(line, number);
    }
    Ok(read)
}

/// "P after T, F not under a struct, M not under a named type or interface".
fn in_place(table: &Table, line: &Line) -> bool {
    let above = table.types.last().map(|t| &t.kind);
    match line {
        Line::Package(_) => above.is_none(),
        Line::Type(_) => true,
        Line::Field(_) => matches!(above, Some(Kind::Struct)),
        Line::Method(_) => matches!(above, Some(Kind::Named(_) | Kind::Iface)),
    }
}

/// "A 65th package, 513th type, 2,049th member, or 256th member of one type".
fn has_room(table: &Table, line: &Line) -> bool {
    match line {
        Line::Package(_) => table.packages.len() < bounds::PACKAGES,
        Line::Type(_) => table.types.len() < bounds::TYPES,
        Line::Field(_) | Line::Method(_) => {
            let above = table.types.last().map_or(0, |t| t.members.len());
            table.members.len() < bounds::MEMBERS && above < bounds::MEMBERS_OF_ONE
        }
    }
}

impl Read {
    fn put(&mut self, line: Line, number: usize) {
        match line {
            Line::Package(path) => self.table.packages.push(path),
            Line::Type(kind) => {
                self.table.add_type(kind);
                self.type_lines.push(number);
            }
            Line::Field(member) | Line::Method(member) => {
                self.table.add_member(member);
                self.member_lines.push(number);
            }
        }
    }
}

/// Refusals 11 and 12 of a question on a table that loads.
pub fn question(table: &Table, line: &[u8]) -> Result<(), Refused> {
    let refused = |number| Refused { number, line: 0 };
    let iface = forms::question(table, line).ok_or(refused(11))?;
    match iface {
        Some(i) if table.types[i].kind != Kind::Iface => Err(refused(12)),
        _ => Ok(()),
    }
}
