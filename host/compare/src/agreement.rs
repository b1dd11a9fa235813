//! When goscript's answer and the library's agree. Of an ambiguous name goscript shows one shortest way and the library
//! the first two, in the order of places; goscript's must be one of these. A method set is goscript's but for the two
//! departures of document 02, point 2. Every other answer is the same in both.

use crate::departures::Departure;
use crate::table::number;
use std::fmt::{self, Display, Formatter};

/// How two answers to one question agree.
#[derive(Clone, Copy, Debug, PartialEq, Eq)]
pub enum Agreement {
    /// They are equal, and not `ambiguous`.
    Equal,
    /// `ambiguous`, and goscript's way is the first of the library's.
    First,
    /// `ambiguous`, and goscript's way is the second.
    Second,
    /// The library's set is goscript's without what departs.
    Departs(Departure),
}

const AMBIGUOUS: &str = "ambiguous\t";

pub fn is_ambiguous(answer: &str) -> bool {
    answer.starts_with(AMBIGUOUS)
}

/// How the library's answer agrees with the one that is due where goscript's departs so, or not at all; nothing if it
/// does not.
pub fn agrees_with((due, departs): (&str, Option<Departure>), library: &str) -> Option<Agreement> {
    match departs {
        Some(departure) => (due == library).then_some(Agreement::Departs(departure)),
        None => agrees(due, library),
    }
}

/// How goscript's answer and the library's agree, where goscript's does not depart; nothing if they do not.
pub fn agrees(goscript: &str, library: &str) -> Option<Agreement> {
    if !is_ambiguous(goscript) {
        return (goscript == library).then_some(Agreement::Equal);
    }
    let lines = |answer| str::strip_suffix(answer, "\n")?.strip_prefix(AMBIGUOUS);
    let (first, second) = lines(library)?.split_once("\nand\t")?;
    let (way, first, second) = (places(lines(goscript)?)?, places(first)?, places(second)?);
    let in_order = first.len() == second.len() && first < second;
    match way {
        _ if !in_order => None,
        way if way == first => Some(Agreement::First),
        way if way == second => Some(Agreement::Second),
        _ => None,
    }
}

/// The places of a way, numbers without sign and leading zeros that tabs part.
fn places(way: &str) -> Option<Vec<usize>> {
    let place = |field: &str| number(field).filter(|place| place.to_string() == field);
    way.split('\t').map(place).collect()
}

/// How often answers agreed, and how.
#[derive(Clone, Copy, Debug, Default, PartialEq, Eq)]
pub struct Agreed {
    pub equal: u64,
    pub first: u64,
    pub second: u64,
    /// Sets without the methods that a field covers.
    pub covered: u64,
    /// Sets that are empty, of pointers to named interfaces.
    pub emptied: u64,
}

impl Agreed {
    pub fn count(&mut self, how: Agreement) {
        *match how {
            Agreement::Equal => &mut self.equal,
            Agreement::First => &mut self.first,
            Agreement::Second => &mut self.second,
            Agreement::Departs(Departure::Covered) => &mut self.covered,
            Agreement::Departs(Departure::NamedInterface) => &mut self.emptied,
        } += 1;
    }

    /// Whether every way to agree was met.
    pub fn all_met(&self) -> bool {
        let counts = [
            self.equal,
            self.first,
            self.second,
            self.covered,
            self.emptied,
        ];
        counts.iter().all(|&count| count > 0)
    }
}

impl Display for Agreed {
    fn fmt(&self, f: &mut Formatter) -> fmt::Result {
        let Agreed {
            equal,
            first,
            second,
            covered,
            emptied,
        } = self;
        write!(f, "{equal} answers equal; of {} ambiguous ", first + second)?;
        write!(f, "goscript's way is the first in {first}, ")?;
        write!(f, "the second in {second}; {covered} sets without ")?;
        write!(f, "what a field covers, {emptied} of pointers to named ")?;
        write!(f, "interfaces empty")
    }
}

#[cfg(test)]
mod tests {
    use super::*;

    /// How two answers agree; blanks stand for tabs.
    fn agreement(goscript: &str, library: &str) -> Option<Agreement> {
        let tabbed = |answer: &str| answer.replace(' ', "\t");
        agrees(&tabbed(goscript), &tabbed(library))
    }

    #[test]
    fn equal_answers_agree() {
        for answer in ["entry 3 0 1 0\n", "notfound\n", "set 1\nsel 0 1 0\n"] {
            assert_eq!(agreement(answer, answer), Some(Agreement::Equal));
        }
    }

    #[test]
    fn other_answers_differ() {
        assert_eq!(agreement("entry 3 0 1 0\n", "entry 3 1 1 0\n"), None);
        assert_eq!(agreement("notfound\n", "badreceiver\n"), None);
        assert_eq!(agreement("set 1\nsel 0 1 0\n", "set 1\n"), None);
        let both = "ambiguous 0 0\nand 1 0\n";
        assert_eq!(agreement("notfound\n", both), None);
        assert_eq!(agreement("ambiguous 0 0\n", "notfound\n"), None);
        assert_eq!(agreement("ambiguous 0 0\n", "entry 0 0 0 0\n"), None);
    }

    #[test]
    fn the_first_way_agrees() {
        let both = "ambiguous 0 0 0\nand 1 0 0\n";
        assert_eq!(agreement("ambiguous 0 0 0\n", both), Some(Agreement::First));
    }

    #[test]
    fn the_second_way_agrees() {
        let both = "ambiguous 0 0\nand 1 0\n";
        assert_eq!(agreement("ambiguous 1 0\n", both), Some(Agreement::Second));
    }

    #[test]
    fn a_way_that_is_neither_differs() {
        let both = "ambiguous 0 0\nand 1 0\n";
        assert_eq!(agreement("ambiguous 2 0\n", both), None);
        assert_eq!(agreement("ambiguous 0 0 0\n", both), None);
        assert_eq!(agreement("ambiguous 0\n", both), None);
    }

    #[test]
    fn one_line_differs_though_it_is_goscripts() {
        assert_eq!(agreement("ambiguous 0 0\n", "ambiguous 0 0\n"), None);
        assert_eq!(agreement("ambiguous 1 0\n", "ambiguous 0 0\n"), None);
    }

    #[test]
    fn a_second_line_without_its_form_differs() {
        for second in ["ambiguous 1 0", "1 0", "and", "and ", "and 1 0 ", "nd 1 0"] {
            let library = format!("ambiguous 0 0\n{second}\n");
            assert_eq!(agreement("ambiguous 0 0\n", &library), None, "{library:?}");
        }
        let three = "ambiguous 0 0\nand 1 0\nand 2 0\n";
        assert_eq!(agreement("ambiguous 0 0\n", three), None);
        let no_newline = "ambiguous 0 0\nand 1 0";
        assert_eq!(agreement("ambiguous 0 0\n", no_newline), None);
        assert_eq!(agreement("ambiguous 0 0\n", "and 0 0\nand 1 0\n"), None);
    }

    #[test]
    fn ways_in_another_order_differ() {
        let swapped = "ambiguous 1 0\nand 0 0\n";
        assert_eq!(agreement("ambiguous 0 0\n", swapped), None);
        assert_eq!(agreement("ambiguous 1 0\n", swapped), None);
        let same = "ambiguous 1 0\nand 1 0\n";
        assert_eq!(agreement("ambiguous 1 0\n", same), None);
    }

    /// Places are ordered as numbers, and the first that differs decides.
    #[test]
    fn places_are_numbers() {
        let both = "ambiguous 2 10\nand 10 2\n";
        assert_eq!(agreement("ambiguous 2 10\n", both), Some(Agreement::First));
        let as_text = "ambiguous 10 2\nand 2 10\n";
        assert_eq!(agreement("ambiguous 10 2\n", as_text), None);
        let zeros = "ambiguous 0 0\nand 01 0\n";
        assert_eq!(agreement("ambiguous 0 0\n", zeros), None);
    }

    #[test]
    fn ways_of_unequal_length_differ() {
        let longer = "ambiguous 0 0\nand 1 0 0\n";
        assert_eq!(agreement("ambiguous 0 0\n", longer), None);
        assert_eq!(agreement("ambiguous 1 0 0\n", longer), None);
        let shorter = "ambiguous 0 0 0\nand 1 0\n";
        assert_eq!(agreement("ambiguous 0 0 0\n", shorter), None);
    }

    #[test]
    fn agreements_are_counted() {
        let mut agreed = Agreed::default();
        let all = [
            Agreement::Equal,
            Agreement::First,
            Agreement::Second,
            Agreement::Departs(Departure::Covered),
            Agreement::Departs(Departure::NamedInterface),
        ];
        for (times, how) in (1..).zip(all) {
            assert!(!agreed.all_met());
            (0..times).for_each(|_| agreed.count(how));
        }
        assert!(agreed.all_met());
        let due = "1 answers equal; of 5 ambiguous goscript's way is the first in 2, the second in 3; 4 sets without what a field covers, 5 of pointers to named interfaces empty";
        assert_eq!(agreed.to_string(), due);
    }
}
