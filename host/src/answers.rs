//! Texts asked and answered in buffers that are kept.

use crate::{ask, ask_all, tidy, work_words, Refusal, RefusalKind};

/// Buffers for one question or text of questions after another, made longer where answers need it; refusals 1 and 13
/// do not occur.
///
/// ```
/// use yifgrun::{Answers, RefusalKind};
///
/// let table = b"typetable\t1\nT\tbasic\t2\nT\tslice\t0\n";
/// let mut answers = Answers::new();
/// assert_eq!(answers.ask(table, b"C\t1")?, b"no\n");
/// assert_eq!(answers.ask_all(table, b"C\t0\nC\t2\n")?, b"yes\nrefused\t11\t0\n");
/// assert_eq!(answers.ask_all(table, b"")?, b"");
/// assert_eq!(answers.ask(table, b"C\t2").unwrap_err().kind, RefusalKind::Question);
/// # Ok::<(), yifgrun::Refusal>(())
/// ```
#[derive(Clone, Debug)]
pub struct Answers {
    answer: Vec<u8>,
    work: Vec<u32>,
}

/// The bytes of a buffer before the first answer that needs more.
const FIRST_BYTES: usize = 4_096;

/// No answer is longer: `set` with its count and a line of at most 2,059 bytes for each of 2,048 members.
const MOST_BYTES: usize = 1 << 23;

impl Answers {
    /// Buffers of a first length.
    pub fn new() -> Answers {
        Answers {
            answer: vec![0; FIRST_BYTES],
            work: vec![0; work_words()],
        }
    }

    /// The answer to a question, a line without its newline, on a table text.
    pub fn ask(&mut self, table: &[u8], question: &[u8]) -> Result<&[u8], Refusal> {
        self.with_room(MOST_BYTES, |answer, work| {
            ask(table, question, answer, work)
        })
    }

    /// The answers to questions, a line each, on a table text that is loaded once: [`ask_all`] in a buffer as long as all
    /// of them need.
    pub fn ask_all(&mut self, table: &[u8], questions: &[u8]) -> Result<&[u8], Refusal> {
        let count = questions.split_inclusive(|&b| b == b'\n').count();
        // Most answers are no longer than their questions: with that much room the first call is mostly the only one.
        self.lengthen(questions.len());
        self.with_room(count.saturating_mul(MOST_BYTES), |answers, work| {
            ask_all(table, questions, answers, work)
        })
    }

    /// A table text with one type of each set of identical types: [`tidy`] in a buffer as long as the table.
    ///
    /// ```
    /// let table = b"typetable\t1\nT\tbasic\t2\nT\tslice\t0\nT\tslice\t0\nT\tpointer\t2\n";
    /// let mut answers = yifgrun::Answers::new();
    /// let tidied = answers.tidy(table)?;
    /// assert_eq!(tidied, b"typetable\t1\nT\tbasic\t2\nT\tslice\t0\nT\tpointer\t1\n");
    /// # Ok::<(), yifgrun::Refusal>(())
    /// ```
    pub fn tidy(&mut self, table: &[u8]) -> Result<&[u8], Refusal> {
        self.lengthen(table.len());
        self.with_room(table.len(), |output, work| tidy(table, output, work))
    }

    /// Makes the buffer at least so long.
    fn lengthen(&mut self, bytes: usize) {
        if self.answer.len() < bytes {
            self.answer.resize(bytes, 0);
        }
    }

    /// Makes a call, and as long as it lacks room makes it again with twice as much. With `most` bytes none lacks room.
    fn with_room(
        &mut self,
        most: usize,
        call: impl Fn(&mut [u8], &mut [u32]) -> Result<usize, Refusal>,
    ) -> Result<&[u8], Refusal> {
        loop {
            match call(&mut self.answer, &mut self.work) {
                Ok(length) => return Ok(&self.answer[..length]),
                Err(refusal) if lacks_room(refusal) && self.answer.len() < most => {
                    self.answer.resize(2 * self.answer.len(), 0);
                }
                Err(refusal) => return Err(refusal),
            }
        }
    }
}

fn lacks_room(refusal: Refusal) -> bool {
    refusal.kind == RefusalKind::AnswerTooLong
}

impl Default for Answers {
    fn default() -> Answers {
        Answers::new()
    }
}
