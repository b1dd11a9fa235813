//! What a call for many questions is due to give, put together from calls for one.

use yifgrun::{Answers, Refusal};

/// The questions of a text: its lines without their newlines. Behind the last newline stands one more, unless nothing does.
pub fn lines(questions: &[u8]) -> impl Iterator<Item = &[u8]> {
    let lines = questions.split_inclusive(|&b| b == b'\n');
    lines.map(|line| line.strip_suffix(b"\n").unwrap_or(line))
}

/// The answer to each question of a text, asked alone, one after the other; or the refusal of the table.
pub fn joined(table: &[u8], questions: &[u8]) -> Result<Vec<u8>, Refusal> {
    let mut answers = Answers::new();
    answers.ask(table, b"V")?;
    let mut joined = Vec::new();
    for question in lines(questions) {
        match answers.ask(table, question) {
            Ok(answer) => joined.extend(answer),
            Err(refusal) => joined.extend(line(refusal)),
        }
    }
    Ok(joined)
}

/// The line of a refused question.
fn line(refusal: Refusal) -> Vec<u8> {
    let (number, line) = (refusal.number(), refusal.line);
    assert!([11, 12].contains(&number) && line == 0, "{refusal}");
    format!("refused\t{number}\t{line}\n").into_bytes()
}
