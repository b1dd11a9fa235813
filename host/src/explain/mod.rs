//! Answers in words, with the names of the table.

mod compare;
mod contents;
mod missing;
mod select;
mod way;

use crate::{Answer, Counts, Library, Method, Question, Refusal, Type};
use contents::{Contents, Role};
use missing::Asked;
use select::Selector;

/// The words of the answer to a question, lines that each end in a newline.
pub fn explain(library: &mut Library, question: &Question) -> Result<String, Refusal> {
    let answer = library.ask(question)?;
    let table = library.table().to_vec();
    let contents = Contents::of(&table);
    match (question, &answer) {
        (
            Question::Select {
                receiver,
                package,
                name,
                ..
            },
            Answer::Selection(selection),
        ) => {
            let selector = Selector {
                receiver: *receiver,
                package: *package,
                name,
            };
            select::words(library, &contents, &selector, selection)
        }
        (
            &Question::Missing {
                of,
                interface,
                is_static,
            },
            &Answer::Satisfaction(satisfaction),
        ) => {
            let asked = Asked {
                of,
                interface,
                is_static,
            };
            missing::words(library, &contents, &asked, satisfaction)
        }
        _ => Ok(told(&contents, question, &answer)),
    }
}

/// The words of an answer that need no other.
fn told(contents: &Contents, question: &Question, answer: &Answer) -> String {
    match (question, answer) {
        (&Question::MethodSet { of }, Answer::MethodSet(methods)) => {
            method_set(contents, of, methods)
        }
        (Question::Identical { left, right }, Answer::Holds(true)) => {
            format!("types {left} and {right} are identical\n")
        }
        (Question::Identical { left, right }, Answer::Holds(false)) => {
            format!("types {left} and {right} are not identical\n")
        }
        (&Question::Comparable { of }, &Answer::Holds(comparable)) => {
            compare::words(contents, of, comparable)
        }
        (Question::Loaded, Answer::Loaded(counts)) => loaded(*counts),
        (question, answer) => panic!("the answer to {question} is {answer:?}"),
    }
}

/// The methods of a set, each as S tells it. The flag of an interface's method says nothing of pointers.
fn method_set(contents: &Contents, of: Type, methods: &[Method]) -> String {
    let lines = methods.iter().map(|method| {
        let way = contents.way(of, &method.way);
        let interface = contents.member(method.member).role == Role::InterfaceMethod;
        let indirect = if interface {
            way.indirect
        } else {
            method.indirect
        };
        contents.told(&way, method.member, indirect) + "\n"
    });
    counted(methods.len(), "method") + "\n" + &lines.collect::<String>()
}

fn loaded(counts: Counts) -> String {
    let counts = [
        (counts.packages, "package"),
        (counts.types, "type"),
        (counts.members, "member"),
    ];
    let words = counts.map(|(count, what)| counted(count.into(), what));
    words.join(", ") + "\n"
}

/// `no methods`, `1 method`, `2 methods`
fn counted(count: usize, what: &str) -> String {
    match count {
        0 => format!("no {what}s"),
        1 => format!("1 {what}"),
        _ => format!("{count} {what}s"),
    }
}
