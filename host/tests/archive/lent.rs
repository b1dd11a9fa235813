//! Calls on buffers that are filled before and looked at behind: what every call promises of them, whatever it is
//! asked.

// Each test takes what it needs.
#![allow(dead_code)]

use yifgrun::{ask, ask_all, tidy, work_words, Refusal};

/// The byte that stands at a place of the answer buffer before a call.
fn byte(place: usize) -> u8 {
    (place as u8).wrapping_mul(37) ^ 0xa5
}

/// The word that stands at a place of the work area before a call; never 0.
fn word(place: usize) -> u32 {
    (place as u32).wrapping_mul(0x9e37_79b9) | 1
}

/// Asks a question, with the answer buffer patterned and the work area dirty, and checks both and the number.
pub fn asked(
    table: &[u8],
    question: &[u8],
    answer: &mut [u8],
    work: &mut [u32],
) -> Result<usize, Refusal> {
    checked(table, answer, work, |answer, work| {
        ask(table, question, answer, work)
    })
}

/// Asks questions in one call, likewise. A refused question is no refusal of the call.
pub fn asked_all(
    table: &[u8],
    questions: &[u8],
    answers: &mut [u8],
    work: &mut [u32],
) -> Result<usize, Refusal> {
    let result = checked(table, answers, work, |answers, work| {
        ask_all(table, questions, answers, work)
    });
    no_question_refused(result);
    result
}

/// Tidies a table, likewise. The output is not longer than the table.
pub fn tidied(table: &[u8], output: &mut [u8], work: &mut [u32]) -> Result<usize, Refusal> {
    let result = checked(table, output, work, |output, work| {
        tidy(table, output, work)
    });
    no_question_refused(result);
    assert!(result.unwrap_or(0) <= table.len(), "{result:?}");
    result
}

fn no_question_refused(result: Result<usize, Refusal>) {
    let of_question = |refusal: &Refusal| [11, 12].contains(&refusal.number());
    assert!(!result.as_ref().is_err_and(of_question), "{result:?}");
}

/// Makes a call on a table, an answer buffer and a work area.
fn checked(
    table: &[u8],
    answer: &mut [u8],
    work: &mut [u32],
    call: impl Fn(&mut [u8], &mut [u32]) -> Result<usize, Refusal>,
) -> Result<usize, Refusal> {
    for (place, b) in answer.iter_mut().enumerate() {
        *b = byte(place);
    }
    for (place, w) in work.iter_mut().enumerate() {
        *w = word(place);
    }
    let result = call(answer, work);
    let touched = match result {
        Ok(length) => length,
        Err(refusal) => {
            check_refusal(refusal, table);
            0
        }
    };
    assert!(touched <= answer.len(), "{touched} of {}", answer.len());
    let first = (touched..answer.len()).find(|&place| answer[place] != byte(place));
    assert_eq!(
        first, None,
        "a byte behind the answer is changed: {result:?}"
    );
    check_work(result, work);
    result
}

/// The number is one of the papers', and a line is named just where one is due: by 14 never the first P line.
fn check_refusal(refusal: Refusal, table: &[u8]) {
    let line = usize::from(refusal.line);
    let lines = table.split_inclusive(|&b| b == b'\n').count();
    match refusal.number() {
        1 | 2 | 11..=13 => assert_eq!(line, 0, "{refusal}"),
        3 => assert_eq!(line, 1, "{refusal}"),
        4..=10 => assert!((2..=lines).contains(&line), "{refusal} of {lines}"),
        14 => assert!((3..=lines).contains(&line), "{refusal} of {lines}"),
        _ => panic!("{refusal}"),
    }
}

/// Refusal 1 is due for a short work area alone and leaves it; otherwise every word is 0.
fn check_work(result: Result<usize, Refusal>, work: &[u32]) {
    let few = matches!(result, Err(refusal) if refusal.number() == 1);
    assert_eq!(few, work.len() < work_words(), "{result:?}");
    let due = |place| if few { word(place) } else { 0 };
    let first = (0..work.len()).find(|&place| work[place] != due(place));
    assert_eq!(first, None, "a word of the work area: {result:?}");
}
