//! Many questions in one call of the library, held against what each gets alone.

use crate::lent;

/// What a call writes, or a refusal's number and line.
pub type Outcome = Result<Vec<u8>, (u8, u16)>;

/// What one call gives for questions on a table, in an answer buffer of so many bytes and a work area of so many words. Buffer
/// and work area are looked at.
fn given((table, questions): (&[u8], &[u8]), room: usize, words: usize) -> Outcome {
    let (mut answers, mut work) = (vec![0; room], vec![0; words]);
    let result = lent::asked_all(table, questions, &mut answers, &mut work);
    let length = result.map_err(|refusal| (refusal.number(), refusal.line))?;
    answers.truncate(length);
    Ok(answers)
}

/// Holds one call against what is due.
pub fn hold(asked: (&[u8], &[u8]), more: usize, words: usize, due: &Outcome) -> Result<(), String> {
    hold_in_rooms(|room| given(asked, room, words), more, due)
}

/// Holds what a call gives against what is due. It is given in a buffer of its length and so many bytes more, and in one that
/// is a byte shorter than it is the call is refused by 13.
pub fn hold_in_rooms(
    given: impl Fn(usize) -> Outcome,
    more: usize,
    due: &Outcome,
) -> Result<(), String> {
    let length = due.as_ref().map_or(0, Vec::len);
    same(&given(length + more), due)?;
    match (due, length.checked_sub(1)) {
        (Ok(_), Some(less)) => same(&given(less), &Err((13, 0))),
        _ => Ok(()),
    }
}

fn same(given: &Outcome, due: &Outcome) -> Result<(), String> {
    if given == due {
        return Ok(());
    }
    let shown = |outcome: &Outcome| match outcome {
        Ok(answers) => answers.escape_ascii().to_string(),
        Err((number, line)) => format!("refusal {number}, line {line}"),
    };
    let (one, other) = (shown(given), shown(due));
    Err(format!("one call gives: {one}\nwhat is due: {other}"))
}
