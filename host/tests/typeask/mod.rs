//! The program `typeask` put together from calls, each question in a call of its own.

use crate::bounds;
use std::collections::BTreeSet;
use yifgrun::{work_words, Refusal};

/// Every answer word, and every refusal but the first: `typeask` has a work area of its own.
pub const WORDS: [&str; 25] = [
    "ambiguous",
    "and",
    "badreceiver",
    "entry",
    "missing",
    "no",
    "notfound",
    "ok",
    "refused 10",
    "refused 11",
    "refused 12",
    "refused 13",
    "refused 14",
    "refused 2",
    "refused 3",
    "refused 4",
    "refused 5",
    "refused 6",
    "refused 7",
    "refused 8",
    "refused 9",
    "satisfied",
    "sel",
    "set",
    "yes",
];

/// A call on a table, a question, an answer buffer and a work area.
pub type Ask = fn(&[u8], &[u8], &mut [u8], &mut [u32]) -> Result<usize, Refusal>;

/// The table text and the questions' text of an input: what stands before the first line `Q`, and what stands behind
/// it; without one, everything and a V.
pub fn texts(input: &[u8]) -> (&[u8], &[u8]) {
    let mut at = 0;
    for line in input.split_inclusive(|&b| b == b'\n') {
        if line == b"Q\n" {
            return (&input[..at], &input[at + line.len()..]);
        }
        at += line.len();
    }
    (input, b"V")
}

/// The table text and the questions of an input.
pub fn parted(input: &[u8]) -> (&[u8], Vec<&[u8]>) {
    let (table, questions) = texts(input);
    let lines = questions.split_inclusive(|&b| b == b'\n');
    let bare = lines.map(|line| line.strip_suffix(b"\n").unwrap_or(line));
    (table, bare.collect())
}

/// What `typeask` prints for an input.
pub fn print(input: &[u8], ask: Ask) -> Vec<u8> {
    if input.len() > bounds::TEXT {
        return b"refused\t2\t0\n".to_vec();
    }
    let (table, questions) = parted(input);
    let mut printed = Vec::new();
    if let Err(refusal) = say_answer(table, b"V", ask, &mut Vec::new()) {
        return line(refusal);
    }
    for question in questions {
        if let Err(refusal) = say_answer(table, question, ask, &mut printed) {
            assert!(
                !refusal.kind.is_of_table(),
                "the table loaded before: {refusal}"
            );
            printed.extend(line(refusal));
        }
    }
    printed
}

fn say_answer(
    table: &[u8],
    question: &[u8],
    ask: Ask,
    printed: &mut Vec<u8>,
) -> Result<(), Refusal> {
    let (mut answer, mut work) = ([0; bounds::ANSWER], vec![0; work_words()]);
    let length = ask(table, question, &mut answer, &mut work)?;
    printed.extend(&answer[..length]);
    Ok(())
}

fn line(refusal: Refusal) -> Vec<u8> {
    format!("refused\t{}\t{}\n", refusal.number(), refusal.line).into_bytes()
}

/// The word that each line printed starts with, for a refusal with its number.
pub fn words(printed: &[u8]) -> BTreeSet<String> {
    let text = String::from_utf8_lossy(printed);
    text.lines().map(first_word).collect()
}

fn first_word(line: &str) -> String {
    let mut fields = line.split('\t');
    match fields.next() {
        Some("refused") => format!("refused {}", fields.next().unwrap_or("")),
        first => first.unwrap_or("").to_owned(),
    }
}
