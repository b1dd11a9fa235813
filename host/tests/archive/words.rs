//! Answers in words, for every question of the stored inputs: there are words where there is an answer, and they tell
//! the same.

use crate::said::say;
use crate::stored::cases;
use crate::typeask;
use yifgrun::{Answer, Library, Method, Question, Satisfaction, Selection, Type};

#[test]
fn words_tell_the_answer() {
    let (mut answered, mut refused) = (0, 0);
    for case in cases() {
        let (table, questions) = typeask::parted(&case.input);
        if let Ok(mut library) = Library::new(table) {
            let told = questions.iter().filter(|q| hold(&mut library, q)).count();
            answered += told;
            refused += questions.len() - told;
        }
    }
    say(&format!(
        "{answered} answers in words, {refused} lines refused"
    ));
    assert!(answered > 500 && refused > 20, "{answered}, {refused}");
}

/// Each struct has the one before twice: whoever goes into every part comes to no end.
#[test]
fn a_part_that_recurs_is_gone_into_once() {
    let twice = |t: usize| format!("T struct\nF A - {t} 0\nF B - {t} 0\n");
    let structs: String = (0..100).map(twice).collect();
    let last = "T slice 0\nT struct\nF Deep - 100 0\nF X - 101 0\n";
    let table = format!("typetable 1\nT basic 2\n{structs}{last}").replace(' ', "\t");
    let mut library = Library::new(table).expect("it loads");
    let words = library.explain(&Question::Comparable { of: Type(102) });
    let due = "values of type 102 cannot be compared: .X is a slice\n";
    assert_eq!(words.as_deref(), Ok(due));
}

/// Whether a line is answered; the words are held against the answer. That no other line is answered is tried where
/// lines are read as values.
fn hold(library: &mut Library, line: &[u8]) -> bool {
    let line = String::from_utf8_lossy(line);
    let Ok(question) = line.parse::<Question>() else {
        return false;
    };
    match (library.ask(&question), library.explain(&question)) {
        (Ok(answer), Ok(words)) => {
            let lines: Vec<&str> = words.lines().collect();
            let whole = words.ends_with('\n') && lines.iter().all(|line| !line.is_empty());
            let agrees = agrees(&question, &answer, &lines);
            assert!(whole && agrees, "{line}\n{answer}{words}");
            true
        }
        (answer, words) => {
            assert_eq!(answer.map(|_| ()), words.map(|_| ()), "{line}");
            false
        }
    }
}

fn agrees(question: &Question, answer: &Answer, lines: &[&str]) -> bool {
    match (question, answer, lines) {
        (Question::Select { name, .. }, Answer::Selection(selection), lines) => {
            is_selection(lines, name, selection)
        }
        (_, Answer::MethodSet(methods), [_, lines @ ..]) => {
            let mut pairs = methods.iter().zip(lines);
            let is_told = |(method, line): (&Method, &&str)| {
                is_way(line, "", method.way.len()) && member(line) == Some(method.member.0)
            };
            methods.len() == lines.len() && pairs.all(is_told)
        }
        (_, Answer::Satisfaction(satisfaction), [line]) => is_satisfaction(line, *satisfaction),
        (_, Answer::Holds(holds), [line]) => line.contains("not ") != *holds,
        (_, Answer::Loaded(_), [_]) => true,
        _ => false,
    }
}

fn is_selection(lines: &[&str], asked: &str, selection: &Selection) -> bool {
    match (selection, lines) {
        (
            Selection::Entry {
                member: found,
                indirect,
                way,
            },
            [line],
        ) => {
            let through_pointer = line.ends_with(", through a pointer");
            is_way(line, asked, way.len())
                && member(line) == Some(found.0)
                && through_pointer == *indirect
        }
        (Selection::BadReceiver, [line]) => {
            let told = format!(".{asked}: a method with pointer receiver, member ");
            line.contains(&told)
        }
        (Selection::Ambiguous { first, second }, [_, one, two]) => {
            is_way(one, asked, first.len()) && is_way(two, asked, second.len())
        }
        (Selection::NotFound, [line]) => {
            line.starts_with(&format!(".{asked}: no field or method of that name"))
        }
        _ => false,
    }
}

/// The member that a line tells.
fn member(line: &str) -> Option<u16> {
    let (_, behind) = line.split_once(", member ")?;
    behind.split([',', ';']).next()?.parse().ok()
}

/// Whether a line tells the method that is missing. Where none has its type, no other method takes its place.
fn is_satisfaction(line: &str, satisfaction: Satisfaction) -> bool {
    let every = line.contains(" every method of interface type ");
    match satisfaction {
        Satisfaction::Satisfied => every,
        Satisfaction::Missing { method, wrong_type } => {
            line.contains(&format!(" member {method} of interface type "))
                && line.contains(" with another type than ") == wrong_type
                && !line.contains(" is a method")
        }
    }
}

/// Whether a line begins with a way of so many names, the last of which is this one, or for none any.
fn is_way(line: &str, last: &str, length: usize) -> bool {
    let way = line.split(": ").next().unwrap_or("");
    let names: Vec<&str> = way.split('.').skip(1).collect();
    names.len() == length && (last.is_empty() || names.last() == Some(&last))
}
