//! Tables tidied by the library, held against what the answers to I lead to.

use crate::lent;
use crate::many::{hold_in_rooms, Outcome};
use crate::repeated::Repeated;
use crate::tidied::{Count, Due, Pair};
use yifgrun::{work_words, Library};

/// What the call gives in a buffer of so many bytes and a work area of so many words. Buffer and work area are looked at.
fn given(table: &[u8], room: usize, words: usize) -> Outcome {
    let (mut output, mut work) = (vec![0; room], vec![0; words]);
    let result = lent::tidied(table, &mut output, &mut work);
    let length = result.map_err(|refusal| (refusal.number(), refusal.line))?;
    output.truncate(length);
    Ok(output)
}

/// Holds the call against what is due, in a buffer with so many bytes to spare and in one that is a byte too short.
pub fn hold(table: &[u8], more: usize, words: usize, due: &Outcome) -> Result<(), String> {
    hold_in_rooms(|room| given(table, room, words), more, due)
}

/// Holds a table that loads: it is tidied as the answers to I say, a second time nothing changes, with its types repeated it
/// becomes the same again, the library tells the numbers that its types get, and questions that are carried by them are
/// answered as before.
pub fn hold_whole(table: &str, questions: &[String]) -> Result<Count, String> {
    let due = Due::of(table);
    for text in [table, &due.text, &Repeated::of(&due.text).text] {
        let tidied = Ok(due.text.clone().into_bytes());
        hold(text.as_bytes(), 0, work_words(), &tidied)?;
    }
    let library = Library::new(table).map_err(|refusal| refusal.to_string())?;
    let numbers = library
        .tidy_numbers()
        .map_err(|refusal| refusal.to_string())?;
    if !numbers
        .iter()
        .map(|&t| usize::from(t))
        .eq(due.numbers.iter().copied())
    {
        return Err(format!("the library's numbers: {numbers:?}"));
    }
    Ok(Pair::new(table, &due.text, &due.numbers).hold(questions))
}
