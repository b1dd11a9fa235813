//! The answers of a call for many questions, one by one.

use crate::Refusal;
use std::{iter, str};

/// The answers that [`ask_all`](crate::ask_all) gives, question by question: an answer with all its lines, or the
/// refusal of its question.
///
/// ```
/// use yifgrun::{each_answer, Answers, RefusalKind};
///
/// let table = b"typetable\t1\nT\tbasic\t2\n";
/// let mut answers = Answers::new();
/// let mut each = each_answer(answers.ask_all(table, b"M\t0\nC\t1\nC\t0\n")?);
/// assert_eq!(each.next(), Some(Ok(&b"set\t0\n"[..])));
/// assert_eq!(each.next().unwrap().unwrap_err().kind, RefusalKind::Question);
/// assert_eq!(each.next(), Some(Ok(&b"yes\n"[..])));
/// assert_eq!(each.next(), None);
/// # Ok::<(), yifgrun::Refusal>(())
/// ```
pub fn each_answer(answers: &[u8]) -> impl Iterator<Item = Result<&[u8], Refusal>> {
    let mut rest = answers;
    iter::from_fn(move || {
        let (answer, behind) = rest.split_at(first_length(rest)?);
        rest = behind;
        Some(refused(answer).map_or(Ok(answer), Err))
    })
}

/// The bytes of the first answer: its first line, and those behind that go on with it, `sel` and `and`.
fn first_length(answers: &[u8]) -> Option<usize> {
    let mut lines = answers.split_inclusive(|&b| b == b'\n');
    let first = lines.next()?.len();
    let goes_on = |line: &&[u8]| line.starts_with(b"sel\t") || line.starts_with(b"and\t");
    let more = lines.take_while(goes_on).map(<[u8]>::len);
    Some(first + more.sum::<usize>())
}

/// The refusal of a question, as a line that no answer has: `refused`, number, 0.
fn refused(answer: &[u8]) -> Option<Refusal> {
    let number = answer.strip_prefix(b"refused\t")?.strip_suffix(b"\t0\n")?;
    let number = str::from_utf8(number).ok()?.parse().ok()?;
    Some(Refusal::of_question(number))
}
