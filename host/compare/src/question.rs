//! The questions of document 01.

use crate::table::{number, package};

#[derive(Clone, Debug, PartialEq, Eq)]
pub enum Question<'a> {
    /// `S t a pkg name`
    Selection {
        t: usize,
        addressable: bool,
        package: Option<usize>,
        name: &'a str,
    },
    /// `M t`
    MethodSet { t: usize },
    /// `N t i s`
    Missing { t: usize, i: usize, strict: bool },
    /// `I x y`
    Identical { x: usize, y: usize },
    /// `C t`
    Comparable { t: usize },
    /// `V`
    Counts,
}

impl Question<'_> {
    /// The question that a line stands for, if it can be read.
    pub fn parse(line: &str) -> Option<Question<'_>> {
        let fields: Vec<&str> = line.split('\t').collect();
        Some(match fields[..] {
            ["S", t, a, p, name] => Question::Selection {
                t: number(t)?,
                addressable: a == "1",
                package: package(p)?,
                name,
            },
            ["M", t] => Question::MethodSet { t: number(t)? },
            ["N", t, i, s] => Question::Missing {
                t: number(t)?,
                i: number(i)?,
                strict: s == "1",
            },
            ["I", x, y] => Question::Identical {
                x: number(x)?,
                y: number(y)?,
            },
            ["C", t] => Question::Comparable { t: number(t)? },
            ["V"] => Question::Counts,
            _ => return None,
        })
    }
}
