//! The functions of the archive, as safe functions on slices: the only file with `unsafe` in it.

use crate::Refusal;
use std::fmt::{self, Display, Formatter};

/// A call of the archive for questions: table, question or questions, buffer and work area, each as its first byte
/// (word) and its length. What comes back is the length of what was written, or minus (refusal × 65,536 + line).
type Call = unsafe extern "C" fn(
    table: *const u8,
    table_len: usize,
    asked: *const u8,
    asked_len: usize,
    buffer: *mut u8,
    buffer_len: usize,
    work: *mut u32,
    work_len: usize,
) -> i64;

extern "C" {
    fn yifgrun_ask(
        table: *const u8,
        table_len: usize,
        question: *const u8,
        question_len: usize,
        answer: *mut u8,
        answer_len: usize,
        work: *mut u32,
        work_len: usize,
    ) -> i64;

    fn yifgrun_ask_all(
        table: *const u8,
        table_len: usize,
        questions: *const u8,
        questions_len: usize,
        answers: *mut u8,
        answers_len: usize,
        work: *mut u32,
        work_len: usize,
    ) -> i64;

    fn yifgrun_tidy(
        table: *const u8,
        table_len: usize,
        output: *mut u8,
        output_len: usize,
        work: *mut u32,
        work_len: usize,
    ) -> i64;

    fn yifgrun_work_words() -> usize;

    fn yifgrun_version() -> u32;
}

/// What the number stands for that a call gives back.
fn returned(number: i64) -> Result<usize, Refusal> {
    usize::try_from(number).map_err(|_| Refusal::of(number))
}

/// Makes one of the archive's two calls for questions.
fn call_archive(
    call: Call,
    table: &[u8],
    asked: &[u8],
    buffer: &mut [u8],
    work: &mut [u32],
) -> Result<usize, Refusal> {
    // SAFETY: `call` is one of the archive's two, which read and write only within the slices. Each pointer is that of
    // a slice and stands before the slice's length. The two that are written are borrowed for this call alone, so that
    // no two overlap.
    let number = unsafe {
        call(
            table.as_ptr(),
            table.len(),
            asked.as_ptr(),
            asked.len(),
            buffer.as_mut_ptr(),
            buffer.len(),
            work.as_mut_ptr(),
            work.len(),
        )
    };
    returned(number)
}

/// Asks one question, a line without its newline, on a table text, and gives the length of the answer.
///
/// The answer stands in front of `answer`, whose rest is unchanged. A refusal changes none of it. The work area may
/// hold anything before; behind, all of it is 0. Only refusal 1 (fewer words than [`work_words`]) leaves it
/// unchanged.
///
/// ```
/// use yifgrun::{ask, work_words, RefusalKind};
///
/// let table = b"typetable\t1\nT\tbasic\t26\nT\tbasic\t8\n";
/// let mut answer = [0; 80];
/// let mut work = vec![0; work_words()];
/// let length = ask(table, b"I\t0\t1", &mut answer, &mut work)?;
/// assert_eq!(&answer[..length], b"yes\n");
///
/// let refusal = ask(table, b"C\t2", &mut answer, &mut work).unwrap_err();
/// assert_eq!(refusal.kind, RefusalKind::Question);
/// # Ok::<(), yifgrun::Refusal>(())
/// ```
pub fn ask(
    table: &[u8],
    question: &[u8],
    answer: &mut [u8],
    work: &mut [u32],
) -> Result<usize, Refusal> {
    call_archive(yifgrun_ask, table, question, answer, work)
}

/// Asks questions, a line each, on a table text that is loaded once, and gives the length of all answers.
///
/// The last question may lack its newline; an empty line is a question of wrong form, and an empty text has no
/// questions. The answers stand one after the other in front of `answers`, whose rest is unchanged. A refused question
/// (11, 12) has the line `refused`, number, 0 for its answer, and the next is answered all the same.
/// [`each_answer`](crate::each_answer) parts them.
///
/// A refusal of the work area (1), of the table (2 to 10, 14), or of a buffer that is shorter than all answers together
/// (13), changes none of `answers`. The work area is as with [`ask`].
///
/// ```
/// use yifgrun::{ask_all, work_words, RefusalKind};
///
/// let table = b"typetable\t1\nT\tbasic\t26\nT\tbasic\t8\n";
/// let mut answers = [0; 80];
/// let mut work = vec![0; work_words()];
/// let length = ask_all(table, b"I\t0\t1\nC\t2\nV", &mut answers, &mut work)?;
/// assert_eq!(&answers[..length], b"yes\nrefused\t11\t0\nok\t0\t2\t0\n");
///
/// let refusal = ask_all(table, b"I\t0\t1\nV", &mut answers[..4], &mut work).unwrap_err();
/// assert_eq!(refusal.kind, RefusalKind::AnswerTooLong);
/// # Ok::<(), yifgrun::Refusal>(())
/// ```
pub fn ask_all(
    table: &[u8],
    questions: &[u8],
    answers: &mut [u8],
    work: &mut [u32],
) -> Result<usize, Refusal> {
    call_archive(yifgrun_ask_all, table, questions, answers, work)
}

/// Writes a table text out again with only the least-numbered type of each set of identical types, and gives the length
/// of the output, which is never more than the table's.
///
/// The types that remain keep their order and are numbered anew. Each reference goes to the type that remains of the
/// same set. All packages stay. [`Library::tidy`](crate::Library::tidy) says what carries over.
///
/// The new table stands in front of `output`, whose rest is unchanged. A refusal of the work area (1), of the table
/// (2 to 10, 14), or of a buffer that is too short (13), changes none of it. The work area is as with [`ask`].
///
/// ```
/// use yifgrun::{tidy, work_words, RefusalKind};
///
/// let table = b"typetable\t1\nT\tbasic\t26\nT\tbasic\t8\nT\tslice\t1\n";
/// let mut output = [0; 80];
/// let mut work = vec![0; work_words()];
/// let length = tidy(table, &mut output, &mut work)?;
/// assert_eq!(&output[..length], b"typetable\t1\nT\tbasic\t26\nT\tslice\t0\n");
///
/// let refusal = tidy(table, &mut output[..length - 1], &mut work).unwrap_err();
/// assert_eq!(refusal.kind, RefusalKind::AnswerTooLong);
/// # Ok::<(), yifgrun::Refusal>(())
/// ```
pub fn tidy(table: &[u8], output: &mut [u8], work: &mut [u32]) -> Result<usize, Refusal> {
    // SAFETY: the call reads and writes only within the slices. Each pointer is that of a slice and stands before the
    // slice's length. The two that are written are borrowed for this call alone, so that no two overlap.
    let number = unsafe {
        yifgrun_tidy(
            table.as_ptr(),
            table.len(),
            output.as_mut_ptr(),
            output.len(),
            work.as_mut_ptr(),
            work.len(),
        )
    };
    returned(number)
}

/// The words of the work area that a call needs; fewer are refusal 1.
pub fn work_words() -> usize {
    // SAFETY: it reads and writes nothing.
    unsafe { yifgrun_work_words() }
}

/// The version of the archive that is linked.
///
/// ```
/// assert_eq!(yifgrun::version().to_string(), env!("CARGO_PKG_VERSION"));
/// ```
pub fn version() -> Version {
    // SAFETY: it reads and writes nothing.
    let number = unsafe { yifgrun_version() };
    Version {
        major: (number >> 16) as u16,
        minor: (number >> 8) as u8,
        patch: number as u8,
    }
}

/// A version of the library. While `major` is 0, `minor` goes up where a call gives another result than before.
#[derive(Clone, Copy, Debug, PartialEq, Eq, PartialOrd, Ord, Hash)]
pub struct Version {
    /// The first number.
    pub major: u16,
    /// The second.
    pub minor: u8,
    /// The third.
    pub patch: u8,
}

impl Display for Version {
    fn fmt(&self, f: &mut Formatter) -> fmt::Result {
        write!(f, "{}.{}.{}", self.major, self.minor, self.patch)
    }
}
