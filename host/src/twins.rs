//! Which types of a table are identical, by the question I, and the numbers that they have once it is tidied.

use crate::{each_answer, Answers, Refusal, Type};
use std::fmt::Write;

/// What the lines of identical types have in common, whatever they refer to.
#[derive(PartialEq, Eq)]
struct Outline<'a> {
    kind: &'a [u8],
    /// Of the T line.
    fields: usize,
    /// The lines under it.
    members: usize,
}

/// For each type of a table its number in the tidied one. In each round the least type of an outline that has no twin yet
/// is held against the others that have none, by one call for all outlines.
pub fn tidy_numbers(table: &[u8], answers: &mut Answers) -> Result<Vec<Type>, Refusal> {
    let outlines = outlines(table);
    let mut least: Vec<Option<usize>> = vec![None; outlines.len()];
    loop {
        let pairs = next_pairs(&outlines, &mut least);
        if pairs.is_empty() {
            return Ok(ranks(&least));
        }
        let mut questions = String::new();
        for (twin, of) in &pairs {
            writeln!(questions, "I\t{twin}\t{of}").expect("a text takes a line");
        }
        let answers = each_answer(answers.ask_all(table, questions.as_bytes())?);
        for ((twin, of), answer) in pairs.into_iter().zip(answers) {
            if answer? == b"yes\n" {
                least[of] = Some(twin);
            }
        }
    }
}

/// The outlines of a table's types. The text is known to load.
fn outlines(table: &[u8]) -> Vec<Outline<'_>> {
    let mut outlines: Vec<Outline> = Vec::new();
    for line in table.split(|&b| b == b'\n') {
        let mut fields = line.split(|&b| b == b'\t');
        match (fields.next(), outlines.last_mut()) {
            (Some(b"T"), _) => outlines.push(Outline {
                kind: fields.next().unwrap_or_default(),
                fields: fields.count(),
                members: 0,
            }),
            (Some(b"F" | b"M"), Some(last)) => last.members += 1,
            _ => (),
        }
    }
    outlines
}

/// The pairs of types to hold against one another: the least of each outline among those whose twin is not known, which
/// is its own, with the others.
fn next_pairs(outlines: &[Outline], least: &mut [Option<usize>]) -> Vec<(usize, usize)> {
    let mut pairs = Vec::new();
    let mut firsts: Vec<usize> = Vec::new();
    for of in 0..outlines.len() {
        if least[of].is_some() {
            continue;
        }
        let first = firsts
            .iter()
            .find(|&&first| outlines[first] == outlines[of]);
        match first {
            Some(&first) => pairs.push((first, of)),
            None => {
                least[of] = Some(of);
                // A named type is identical to itself alone.
                if outlines[of].kind != b"named" {
                    firsts.push(of);
                }
            }
        }
    }
    pairs
}

/// The numbers of types by their least twins: those that are their own are counted, the others have the number of theirs.
fn ranks(least: &[Option<usize>]) -> Vec<Type> {
    let mut ranks: Vec<Type> = Vec::with_capacity(least.len());
    let mut next = 0;
    for (of, twin) in least.iter().enumerate() {
        match *twin {
            Some(twin) if twin < of => ranks.push(ranks[twin]),
            _ => {
                ranks.push(Type(next));
                next += 1;
            }
        }
    }
    ranks
}
