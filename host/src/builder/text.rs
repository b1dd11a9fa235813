//! The text that a builder's calls make.

use super::Added;
use crate::{Member, Type};

/// A T line and the lines of its members.
#[derive(Clone, Debug)]
pub struct Lines {
    line: String,
    members: Vec<MemberLine>,
    /// Whether members are written in the order of their ids, as those of an interface.
    ordered: bool,
}

#[derive(Clone, Debug)]
struct MemberLine {
    line: String,
    id: String,
}

impl Lines {
    pub fn of(line: String) -> Lines {
        Lines {
            line,
            members: Vec::new(),
            ordered: false,
        }
    }

    pub fn ordered(line: String) -> Lines {
        Lines {
            ordered: true,
            ..Lines::of(line)
        }
    }

    /// Puts a field behind the T line's last.
    pub fn extend(&mut self, field: &str) {
        self.line += "\t";
        self.line += field;
    }

    /// Puts a field behind the last of a member's line.
    pub fn extend_member(&mut self, nth: usize, field: &str) {
        let line = &mut self.members[nth].line;
        *line += "\t";
        *line += field;
    }

    /// Adds a member, and gives how many were added before it.
    pub fn push(&mut self, line: String, id: String) -> usize {
        self.members.push(MemberLine { line, id });
        self.members.len() - 1
    }

    /// The members in the order in which they are written, each as how many were added before it.
    fn order(&self) -> Vec<usize> {
        let mut order: Vec<usize> = (0..self.members.len()).collect();
        if self.ordered {
            order.sort_by(|&a, &b| self.members[a].id.cmp(&self.members[b].id));
        }
        order
    }
}

/// The id of a member, by which the methods of an interface are ordered: of an exported name the name alone.
pub fn id(path: &str, name: &str) -> String {
    if name.starts_with(|c: char| c.is_ascii_uppercase()) {
        return name.to_owned();
    }
    format!("{path}.{name}")
}

/// A text of the caller as a field. Bytes that part fields and lines become one that no field may have, so that the line
/// is refused, and not read as another.
pub fn clean(field: &str) -> String {
    const REFUSED: &str = "\u{7f}";
    field.replace(['\t', '\n'], REFUSED)
}

/// A finished table: its text, and the numbers of its members.
#[derive(Clone, Debug)]
pub struct Table {
    text: String,
    /// By type, and there in the order of adding.
    numbers: Vec<Vec<Member>>,
}

impl Table {
    pub(super) fn of(paths: &[String], types: Vec<Lines>) -> Table {
        let mut text = String::from("typetable\t1\n");
        for path in paths {
            text += &format!("P\t{}\n", clean(path));
        }
        let mut table = Table {
            text,
            numbers: Vec::new(),
        };
        let mut written = 0;
        for lines in types {
            table.write(&lines, written);
            written += lines.members.len();
        }
        table
    }

    /// Writes a type with its members, behind so many members.
    fn write(&mut self, lines: &Lines, before: usize) {
        self.text += &format!("T\t{}\n", lines.line);
        let mut numbers = vec![Member(0); lines.members.len()];
        for (place, nth) in lines.order().into_iter().enumerate() {
            self.text += &lines.members[nth].line;
            self.text += "\n";
            numbers[nth] = Member(u16::try_from(before + place).unwrap_or(u16::MAX));
        }
        self.numbers.push(numbers);
    }

    /// The table text.
    pub fn text(&self) -> &str {
        &self.text
    }

    /// A line of the text, the first being 1, such as a refusal names.
    pub fn line(&self, number: u16) -> Option<&str> {
        self.text.lines().nth(usize::from(number).checked_sub(1)?)
    }

    /// The number of a member. For one that was added to another builder it gives a wrong one, or panics.
    pub fn member(&self, added: Added) -> Member {
        self.numbers[usize::from(added.of)][added.nth]
    }

    /// The member of a number, if the table has it.
    pub fn added(&self, member: Member) -> Option<Added> {
        let found = |numbers: &Vec<Member>| numbers.iter().position(|&number| number == member);
        let mut types = (0..).map(Type).zip(&self.numbers);
        types.find_map(|(of, numbers)| {
            Some(Added {
                of,
                nth: found(numbers)?,
            })
        })
    }
}

/// The text, as [`Library::new`](crate::Library::new) takes it.
impl From<&Table> for Vec<u8> {
    fn from(table: &Table) -> Vec<u8> {
        table.text.clone().into_bytes()
    }
}
