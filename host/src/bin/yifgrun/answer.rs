//! The commands `ask` and `explain`.

use crate::cause;
use crate::input::Input;
use crate::output::{Output, Status};
use std::str;
use yifgrun::{each_answer, Answers, Library, Question};

/// How an answer is printed.
#[derive(Clone, Copy)]
pub enum Manner {
    /// As the archive gives it.
    Lines,
    /// In words.
    Words,
}

/// Answers one question on the table of an input.
pub fn one(
    manner: Manner,
    input: &Input,
    question: &[u8],
    output: &mut Output,
) -> Result<Status, String> {
    let mut answers = Answers::new();
    let refusal = match (answers.ask(input.table(), question), manner) {
        (Ok(answer), Manner::Lines) => {
            output.print(answer)?;
            return Ok(Status::Good);
        }
        (Ok(_), Manner::Words) => {
            output.print(words(&mut library(input), question))?;
            return Ok(Status::Good);
        }
        (Err(refusal), _) => refusal,
    };
    if refusal.kind.is_of_table() {
        output.tell(&input.refused(refusal))?;
    } else {
        let which = format!("question {}", shown(question));
        let why = cause::told(refusal, question, input.table());
        output.tell(&format!("{}: {why}", which.trim_end_matches(' ')))?;
    }
    Ok(Status::Refused)
}

/// Answers every question of an input. The table is loaded once; if it is refused, that is said once, whatever is
/// asked.
pub fn whole(manner: Manner, input: &Input, output: &mut Output) -> Result<Status, String> {
    let mut answers = Answers::new();
    match (answers.ask_all(input.table(), input.questions()), manner) {
        (Ok(answers), Manner::Lines) => each(input, answers, output, |_, answer, output| {
            output.print(answer)
        }),
        (Ok(answers), Manner::Words) => {
            let mut library = library(input);
            each(input, answers, output, |question, _, output| {
                output.print(explained(&mut library, question))
            })
        }
        (Err(refusal), _) => {
            output.tell(&input.refused(refusal))?;
            Ok(Status::Refused)
        }
    }
}

/// Prints the answers and tells the refusals in the order of their questions.
fn each(
    input: &Input,
    answers: &[u8],
    output: &mut Output,
    mut print: impl FnMut(&[u8], &[u8], &mut Output) -> Result<(), String>,
) -> Result<Status, String> {
    let mut status = Status::Good;
    for ((line, question), answer) in input.each_question().zip(each_answer(answers)) {
        match answer {
            Ok(answer) => print(question, answer, output)?,
            Err(refusal) => {
                let why = cause::told(refusal, question, input.table());
                output.tell(&input.at(line, &why))?;
                status = Status::Refused;
            }
        }
    }
    Ok(status)
}

/// The library on a table that a call has loaded.
fn library(input: &Input) -> Library {
    Library::new(input.table()).expect("the table loaded before")
}

/// The words of a question that a call has answered.
fn words(library: &mut Library, question: &[u8]) -> String {
    let question = str::from_utf8(question).expect("a question that is answered is ASCII");
    let question: Question = question.parse().expect("it has the form of one");
    library.explain(&question).expect("it was answered before")
}

/// A question on a line of its own, and its words, indented.
fn explained(library: &mut Library, question: &[u8]) -> String {
    let words = words(library, question);
    let lines = words.lines().map(|line| format!("  {line}\n"));
    format!("{}\n{}", shown(question), lines.collect::<String>())
}

/// Characters of a question that are shown of one that is too long to be one.
const MOST_SHOWN: usize = 64;

/// A question as a person writes it, with blanks between its fields.
pub fn shown(question: &[u8]) -> String {
    let text = String::from_utf8_lossy(question).replace('\t', " ");
    match text.char_indices().nth(MOST_SHOWN) {
        Some((end, _)) => format!("{}..", &text[..end]),
        None => text,
    }
}
