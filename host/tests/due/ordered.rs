//! Stored cases that point 5 refuses, with their packages put in order. A package is known by its path: so each gives then
//! what was printed for it before point 5, but for V's count of packages and the line of a refusal.

use super::{disorder, is_refused_by, packages};
use crate::bounds;

/// An input of `typeask` that point 5 refuses, and what was printed for it before, put in order. None that gets too long by
/// it: a carried number may have a digit more.
pub fn case(input: &[u8], output: &[u8]) -> Option<(Vec<u8>, Vec<u8>)> {
    let order = Order::of(input, output)?;
    let ordered = order.input(input);
    (ordered.len() <= bounds::TEXT).then(|| (ordered, order.output(output)))
}

/// The packages of a table put in order.
pub struct Order<'a> {
    /// The paths in order, each once.
    paths: Vec<&'a [u8]>,
    /// The new number of each package, by its old one.
    numbers: Vec<usize>,
}

impl<'a> Order<'a> {
    /// The order of a table, or of an input that begins with it, that point 5 refuses; nothing where no more is known of it
    /// than this refusal.
    pub fn of(input: &'a [u8], output: &[u8]) -> Option<Self> {
        disorder(input, output).filter(|_| !is_refused_by(output, 14))?;
        let old = packages(input);
        let mut paths = old.clone();
        paths.sort_unstable();
        paths.dedup();
        let number = |path| paths.binary_search(path).expect("each path is there");
        let numbers = old.iter().map(number).collect();
        Some(Order { paths, numbers })
    }

    /// An input of `typeask`, or a table alone, put in order.
    pub fn input(&self, input: &[u8]) -> Vec<u8> {
        let mut lines = input.split_inclusive(|&b| b == b'\n');
        let mut ordered = lines.next().unwrap_or_default().to_vec();
        for path in &self.paths {
            ordered.extend([b"P\t", *path, b"\n"].concat());
        }
        let mut asked = false;
        for line in lines.skip(self.numbers.len()) {
            let carried = if asked {
                self.question(line)
            } else {
                self.member(line)
            };
            ordered.extend(carried);
            asked |= line == b"Q\n";
        }
        ordered
    }

    /// A question with its package carried: `S t a pkg name`.
    pub fn question(&self, line: &[u8]) -> Vec<u8> {
        match line {
            [b'S', ..] => self.carried(line, 3),
            _ => line.to_vec(),
        }
    }

    /// A line of the table behind its packages, with its own carried: `F name pkg ..`, `M name pkg ..`.
    fn member(&self, line: &[u8]) -> Vec<u8> {
        match line {
            [b'F' | b'M', ..] => self.carried(line, 2),
            _ => line.to_vec(),
        }
    }

    /// A line with the package number in this field carried. One that the table lacks stays as far behind the last; what has
    /// not the form of a number stays.
    fn carried(&self, line: &[u8], field: usize) -> Vec<u8> {
        changed(line, field, |old| match self.numbers.get(old) {
            Some(&new) => new,
            None => old - self.gone(),
        })
    }

    /// How many P lines are gone, those of paths that stood before.
    fn gone(&self) -> usize {
        self.numbers.len() - self.paths.len()
    }

    /// What is due for the case put in order: V's count of packages, and the line of a refused table, which stands behind its
    /// packages, are less by the P lines that are gone.
    pub fn output(&self, output: &[u8]) -> Vec<u8> {
        let less = |number| number - self.gone();
        let of_table = (7..=10).any(|number| is_refused_by(output, number));
        let lines = output.split_inclusive(|&b| b == b'\n');
        let due = lines.flat_map(|line| match line {
            [b'o', b'k', ..] => changed(line, 1, less),
            _ if of_table => changed(line, 2, less),
            _ => line.to_vec(),
        });
        due.collect()
    }
}

/// A line with the number in this field changed, where it has the form of one.
fn changed(line: &[u8], field: usize, new: impl Fn(usize) -> usize) -> Vec<u8> {
    let (line, end) = match line {
        [line @ .., b'\n'] => (line, &b"\n"[..]),
        _ => (line, &b""[..]),
    };
    let mut fields: Vec<Vec<u8>> = line.split(|&b| b == b'\t').map(<[u8]>::to_vec).collect();
    if let Some(field) = fields.get_mut(field) {
        if let Some(old) = number(field) {
            *field = new(old).to_string().into_bytes();
        }
    }
    [&fields.join(&b'\t'), end].concat()
}

/// The number that these digits are, without a sign or a zero before them.
fn number(digits: &[u8]) -> Option<usize> {
    let text = str::from_utf8(digits).ok()?;
    let number: usize = text.parse().ok()?;
    (number.to_string() == text).then_some(number)
}
