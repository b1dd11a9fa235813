//! The program `typeask` of document 01, with the answers of some engine.

use crate::bounds;
use crate::engine::Engine;

/// The table text and the questions of an input: what stands before the first line `Q`, and the lines behind it;
/// without one, everything and a V.
pub fn parted(input: &[u8]) -> (&[u8], Vec<&[u8]>) {
    let starts = |at: usize| at == 0 || input[at - 1] == b'\n';
    let q = (0..input.len()).find(|&at| starts(at) && input[at..].starts_with(b"Q\n"));
    let Some(q) = q else {
        return (input, vec![b"V"]);
    };
    let questions = input[q + 2..].split_inclusive(|&b| b == b'\n');
    let line = |line| <[u8]>::strip_suffix(line, b"\n").unwrap_or(line);
    (&input[..q], questions.map(line).collect())
}

/// What `typeask` prints for an input whose table loads and whose questions have the right form, with
/// the answers of this engine; nothing if a line can't be read.
pub fn print(engine: &mut dyn Engine, input: &str) -> Option<String> {
    let (table, questions) = parted(input.as_bytes());
    engine.load(str::from_utf8(table).ok()?)?;
    let mut printed = String::new();
    for question in questions {
        let answer = engine.ask(str::from_utf8(question).ok()?)?;
        printed += if answer.len() > bounds::ANSWER {
            "refused\t13\t0\n"
        } else {
            &answer
        };
    }
    Some(printed)
}

/// What was printed, answer by answer: the lines `sel` belong to the line `set` before them, and the line `and` to the
/// line `ambiguous`.
pub fn answers(printed: &str) -> Vec<String> {
    let mut all: Vec<String> = Vec::new();
    for line in printed.split_inclusive('\n') {
        match all.last_mut() {
            Some(last) if line.starts_with("sel\t") || line.starts_with("and\t") => *last += line,
            _ => all.push(line.to_owned()),
        }
    }
    all
}
