//! Why a table or a question is refused, said closer than the words of its refusal do.

use crate::answer::shown;
use crate::output::counted;
use std::str;
use yifgrun::{Counts, Library, Package, Question, Refusal, RefusalKind, Type};

/// Bytes of a question.
const MOST_BYTES: usize = 256;

/// The forms of questions.
const FORMS: [&str; 6] = ["S t a pkg name", "M t", "N t i s", "I x y", "C t", "V"];

/// The words of a question's refusal, and what is wrong with the question where more can be said.
pub fn told(refusal: Refusal, question: &[u8], table: &[u8]) -> String {
    let kind = refusal.kind;
    let cause = match kind {
        RefusalKind::Question => cause(question, table),
        _ => None,
    };
    let number = kind.number();
    cause.map_or_else(|| kind.to_string(), |c| format!("{c} (refusal {number})"))
}

/// The words of a table's refusal, with what stands on its line.
pub fn of_table(refusal: Refusal, table: &[u8]) -> String {
    let words = refusal.kind.to_string();
    let lines = table.split_inclusive(|&b| b == b'\n');
    match lines.zip(1..).find(|(_, number)| *number == refusal.line) {
        Some((line, _)) => format!("{words}: {}", seen(line)),
        None => words,
    }
}

/// A line of a table, or what is wrong with its bytes.
fn seen(line: &[u8]) -> String {
    let is_in_line = |b: &u8| (b' '..=b'~').contains(b) || *b == b'\t';
    let (bare, ended) = match line.strip_suffix(b"\n") {
        Some(bare) => (bare, true),
        None => (line, false),
    };
    let strange = bare.iter().find(|&b| !is_in_line(b));
    match strange {
        Some(b'\r') => "the line has a carriage return".to_owned(),
        Some(byte) => format!("the line has the byte {byte}"),
        None if !ended => "the line has no newline".to_owned(),
        None if bare.contains(&b' ') && !bare.contains(&b'\t') => {
            "the line has blanks, and fields are parted by tabs".to_owned()
        }
        None => format!("`{}`", shown(bare)),
    }
}

fn cause(question: &[u8], table: &[u8]) -> Option<String> {
    if let Some(cause) = of_bytes(question) {
        return Some(cause);
    }
    let line = str::from_utf8(question).ok()?;
    if let Some(form) = another_form(line) {
        return Some(format!("the form of the question is `{form}`"));
    }
    match line.parse::<Question>() {
        Ok(question) => lacking(&question, Library::new(table).ok()?.counts()),
        Err(error) => Some(error.to_string()),
    }
}

/// What is wrong with its bytes, whatever they mean.
fn of_bytes(question: &[u8]) -> Option<String> {
    if question.is_empty() {
        return Some("the question is empty".to_owned());
    }
    if question.len() > MOST_BYTES {
        return Some(format!(
            "the question has {}, more than {MOST_BYTES}",
            counted(question.len(), "byte")
        ));
    }
    let strange = question
        .iter()
        .find(|&&b| b != b'\t' && !b.is_ascii_graphic());
    strange.map(|byte| match byte {
        b' ' => "the question has a blank, and fields are parted by tabs".to_owned(),
        b'\r' => "the question has a carriage return".to_owned(),
        b'\n' => "the question has a newline".to_owned(),
        byte => format!("the question has the byte {byte}"),
    })
}

/// The form that a question of its letter has, if this one has more or fewer fields.
fn another_form(line: &str) -> Option<&'static str> {
    let letter = line.split('\t').next();
    let form = FORMS.iter().find(|form| form.split(' ').next() == letter)?;
    let fits = form.split(' ').count() == line.split('\t').count();
    (!fits).then_some(*form)
}

/// The first number of a question that the table lacks.
fn lacking(question: &Question, counts: Counts) -> Option<String> {
    let (types, package) = numbers(question);
    let beyond = types.into_iter().flatten().find(|of| of.0 >= counts.types);
    if let Some(of) = beyond {
        let types = counted(counts.types.into(), "type");
        return Some(format!("there is no type {of}, the table has {types}"));
    }
    let package = package.filter(|package| package.0 >= counts.packages)?;
    let packages = counted(counts.packages.into(), "package");
    Some(format!(
        "there is no package {package}, the table has {packages}"
    ))
}

/// The types and the package that a question names.
fn numbers(question: &Question) -> ([Option<Type>; 2], Option<Package>) {
    match *question {
        Question::Select {
            receiver, package, ..
        } => ([Some(receiver), None], package),
        Question::MethodSet { of } | Question::Comparable { of } => ([Some(of), None], None),
        Question::Missing { of, interface, .. } => ([Some(of), Some(interface)], None),
        Question::Identical { left, right } => ([Some(left), Some(right)], None),
        _ => ([None, None], None),
    }
}
