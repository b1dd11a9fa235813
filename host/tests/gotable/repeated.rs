//! Tables as a generator writes them that does not know which types it has written: a line for each mention of a type, as
//! far as there is room.

use crate::bounds;
use crate::tidied::{all_renumbered, Lines};

/// A type as it is written: the number that it had, and what its lines refer to, one after the other.
struct Written {
    of: usize,
    refers: Vec<Target>,
}

/// What a line refers to: a type written for this mention, by its new number, or the first of its old number.
#[derive(Clone, Copy)]
enum Target {
    Own(usize),
    First(usize),
}

/// What a table takes of its bounds, if each type number has as many digits as the last one.
#[derive(Clone, Copy)]
struct Size {
    types: usize,
    members: usize,
    bytes: usize,
}

impl Size {
    fn of(lines: &[&str]) -> Size {
        Size {
            types: 1,
            members: lines.len() - 1,
            bytes: all_renumbered(lines, |_| bounds::TYPES - 1).len(),
        }
    }

    fn with(self, other: Size) -> Size {
        Size {
            types: self.types + other.types,
            members: self.members + other.members,
            bytes: self.bytes + other.bytes,
        }
    }

    fn fits(&self) -> bool {
        let Size {
            types,
            members,
            bytes,
        } = *self;
        types <= bounds::TYPES && members <= bounds::MEMBERS && bytes <= bounds::TEXT
    }
}

/// A table with types repeated, and the number that each of its types has in the table that it was made from.
pub struct Repeated {
    pub text: String,
    pub numbers: Vec<usize>,
}

impl Repeated {
    pub fn of(table: &str) -> Repeated {
        let lines = Lines::of(table);
        let mut writer = Writer::new(&lines);
        for t in 0..lines.types() {
            let number = writer.write(t);
            writer.first.push(number);
        }
        let numbers = writer.written.iter().map(|written| written.of).collect();
        let types = writer.written.iter().map(|written| {
            let mut refers = written.refers.iter();
            all_renumbered(lines.of_type(written.of), |_| match refers.next() {
                Some(&Target::Own(number)) => number,
                Some(&Target::First(t)) => writer.first[t],
                None => panic!("a line refers to as many types as before"),
            })
        });
        Repeated {
            text: lines.with_types(types),
            numbers,
        }
    }
}

struct Writer<'a> {
    lines: &'a Lines<'a>,
    written: Vec<Written>,
    /// The new number of each type, without those for a mention.
    first: Vec<usize>,
    /// Of all that is or will be written.
    size: Size,
}

impl<'a> Writer<'a> {
    fn new(lines: &'a Lines<'a>) -> Writer<'a> {
        let none = Size {
            types: 0,
            members: 0,
            bytes: lines.with_types([]).len(),
        };
        let sizes = (0..lines.types()).map(|t| Size::of(lines.of_type(t)));
        Writer {
            lines,
            written: Vec::new(),
            first: Vec::new(),
            size: sizes.fold(none, Size::with),
        }
    }

    /// Writes a type behind all that it mentions, and gives its number.
    fn write(&mut self, of: usize) -> usize {
        let mut mentioned = Vec::new();
        all_renumbered(self.lines.of_type(of), |t| {
            mentioned.push(t);
            t
        });
        let refers = mentioned.iter().map(|&t| self.mention(t, of)).collect();
        self.written.push(Written { of, refers });
        self.written.len() - 1
    }

    /// What a type refers to for another: one that is written for it, unless that is named, basic, or comes later.
    fn mention(&mut self, t: usize, from: usize) -> Target {
        let lines = self.lines.of_type(t);
        let once = ["T\tnamed\t", "T\tbasic\t"]
            .iter()
            .any(|k| lines[0].starts_with(k));
        let size = self.size.with(Size::of(lines));
        if once || t >= from || !size.fits() {
            return Target::First(t);
        }
        self.size = size;
        Target::Own(self.write(t))
    }
}
