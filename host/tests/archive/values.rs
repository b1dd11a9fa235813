//! Questions, answers and refusals as values: on every stored input they print and parse as the lines do, and
//! `Library` gives by values what the calls give by texts.

use crate::numbers::Numbers;
use crate::said::say;
use crate::stored::cases;
use crate::typeask;
use yifgrun::{each_answer, Answer, Answers, Counts, Library, Package, Question, Refusal};
use yifgrun::{RefusalKind, Type};

/// Whether a question names only types and packages that the table has.
fn within(question: &Question, counts: Counts) -> bool {
    let (types, package) = match question {
        Question::Select {
            receiver, package, ..
        } => (vec![*receiver], *package),
        Question::MethodSet { of } | Question::Comparable { of } => (vec![*of], None),
        Question::Missing { of, interface, .. } => (vec![*of, *interface], None),
        Question::Identical { left, right } => (vec![*left, *right], None),
        _ => (vec![], None),
    };
    types.iter().all(|t| t.0 < counts.types) && package.is_none_or(|p| p.0 < counts.packages)
}

/// A line is a question by its form exactly if the table refuses it for nothing but its numbers.
fn hold_line(line: &[u8], given: &Result<&[u8], Refusal>, counts: Counts) -> Option<Question> {
    let refused = matches!(given, Err(refusal) if refusal.kind == RefusalKind::Question);
    let parsed = str::from_utf8(line).ok().and_then(|l| l.parse().ok());
    let due = parsed.as_ref().is_some_and(|q| within(q, counts));
    assert_eq!(refused, !due, "{}: {parsed:?}", line.escape_ascii());
    let question: Question = parsed?;
    assert_eq!(question.to_string().as_bytes(), line);
    Some(question)
}

fn hold_answer(text: &[u8]) -> Answer {
    let text = str::from_utf8(text).expect("answers are text");
    let answer: Answer = text.parse().unwrap_or_else(|e| panic!("{text}{e}"));
    assert_eq!(answer.to_string(), text);
    answer
}

#[test]
fn stored_lines_are_values() {
    let (mut answers, mut questions, mut refused) = (Answers::new(), 0, 0);
    for case in cases() {
        let (table, lines) = typeask::parted(&case.input);
        let Ok(mut library) = Library::new(table) else {
            continue;
        };
        let all = typeask::texts(&case.input).1;
        let all = answers.ask_all(table, all).expect("the table loads");
        let given: Vec<_> = each_answer(all).collect();
        assert_eq!(given.len(), lines.len(), "{}", case.name);
        let (mut asked, mut due) = (Vec::new(), Vec::new());
        for (line, given) in lines.iter().zip(&given) {
            let answer = given.map(hold_answer);
            refused += usize::from(answer.is_err());
            if let Some(question) = hold_line(line, given, library.counts()) {
                asked.push(question);
                due.push(answer);
            }
        }
        questions += asked.len();
        assert_eq!(library.ask_all(&asked), due, "{}", case.name);
    }
    say(&format!(
        "{questions} questions as values, {refused} lines refused"
    ));
    assert!(questions > 800 && refused > 10);
}

/// What `Library` gives by the method that a question has.
fn asked(library: &mut Library, question: &Question) -> Result<Answer, Refusal> {
    match question {
        Question::Select {
            receiver,
            addressable,
            package,
            name,
        } => library
            .select(*receiver, *addressable, *package, name)
            .map(Answer::Selection),
        Question::MethodSet { of } => library.method_set(*of).map(Answer::MethodSet),
        Question::Missing {
            of,
            interface,
            is_static,
        } => library
            .missing(*of, *interface, *is_static)
            .map(Answer::Satisfaction),
        Question::Identical { left, right } => library.identical(*left, *right).map(Answer::Holds),
        Question::Comparable { of } => library.comparable(*of).map(Answer::Holds),
        _ => Ok(Answer::Loaded(library.counts())),
    }
}

const TABLE: &str =
    "typetable\t1\nP\ta\nP\tb\nT\tbasic\t2\nT\ttuple\nT\tfunc\t0\t1\t1\nT\tstruct\nF\tx\t0\t0\t0\n\
    T\tnamed\t3\nM\tClose\t0\t2\t1\nT\tiface\nM\tClose\t1\t2\t0\nT\tslice\t0\n";

/// Questions of every kind, with numbers in the table and beyond it, and names of any text.
fn any(numbers: &mut Numbers) -> Question {
    const NAMES: [&str; 9] = ["Close", "x", "_", "", "2x", "a\tb", "V\nV", "\n", "\u{e9}"];
    const TYPES: [u16; 9] = [0, 1, 2, 3, 4, 5, 6, 7, 12_345];
    let mut t = || Type(TYPES[numbers.below(TYPES.len())]);
    let (one, other) = (t(), t());
    let is = numbers.below(2) == 1;
    match numbers.below(6) {
        0 => Question::MethodSet { of: one },
        1 => Question::Missing {
            of: one,
            interface: other,
            is_static: is,
        },
        2 => Question::Identical {
            left: one,
            right: other,
        },
        3 => Question::Comparable { of: one },
        4 => Question::Loaded,
        _ => {
            let package = [None, Some(Package(0)), Some(Package(2))][numbers.below(3)];
            Question::select(one, is, package, NAMES[numbers.below(NAMES.len())])
        }
    }
}

/// Whatever stands in its name, each question of a batch has its own answer, and the one that it has alone.
#[test]
fn a_batch_is_answered_as_each_alone() {
    let mut numbers = Numbers(20);
    let mut library = Library::new(TABLE).expect("it loads");
    let mut met = [0; 2];
    for count in 0..400 {
        let questions: Vec<Question> = (0..count % 40).map(|_| any(&mut numbers)).collect();
        let each: Vec<_> = questions.iter().map(|q| library.ask(q)).collect();
        let by_method: Vec<_> = questions.iter().map(|q| asked(&mut library, q)).collect();
        assert_eq!(each, by_method);
        assert_eq!(library.ask_all(&questions), each, "{questions:?}");
        met[0] += each.iter().filter(|answer| answer.is_ok()).count();
        met[1] += each.iter().filter(|answer| answer.is_err()).count();
    }
    assert!(met.iter().all(|&met| met > 1_000), "{met:?}");
}

#[test]
fn a_library_keeps_its_table_and_its_counts() {
    let library = Library::new(TABLE).expect("it loads");
    assert_eq!(library.table(), TABLE.as_bytes());
    let counts = Counts {
        packages: 2,
        types: 7,
        members: 3,
    };
    assert_eq!(library.counts(), counts);
    assert_eq!(library.clone().counts(), counts);
    let refusal = Library::new("typetable\t2\n").unwrap_err();
    assert_eq!((refusal.kind, refusal.line), (RefusalKind::Header, 1));
}

/// Texts that are nearly questions.
#[rustfmt::skip]
const NO_QUESTIONS: [&str; 23] = [
    "", "S", "X\t1", "M", "M\t", "M\t-1", "M\t+1", "M\t00", "M\t01", "M\t12345", "M\t1\t", "M 1", "M\t1\n",
    "S\t0\t2\t-\tX", "S\t0\t0\t\tX", "S\t0\t0\t-\t", "S\t0\t0\t-\t1X", "S\t0\t0\t-\tX-", "N\t0\t1\t2", "I\t0",
    "C\t0\t0", "V\t", "v",
];

/// Texts that are nearly answers.
#[rustfmt::skip]
const NO_ANSWERS: [&str; 21] = [
    "", "\n", "yes", "yes\n\n", "no\t\n", "entry\t1\t0\n", "entry\t1\t2\t0\n", "entry\t1\t0\t\n", "ambiguous\t0\n",
    "ambiguous\t0\nand\n", "ambiguous\t0\nsel\t0\n", "and\t0\n", "set\t1\n", "set\t0\nsel\t0\t0\t0\n",
    "set\t1\nsel\t0\t0\n", "set\t1\t1\nsel\t0\t0\t0\n", "missing\t1\n", "ok\t1\t2\n", "refused\t11\t0\n",
    "notfound\nnotfound\n", "satisfied\nand\t0\n",
];

#[test]
fn other_texts_are_no_values() {
    for line in NO_QUESTIONS {
        assert!(line.parse::<Question>().is_err(), "{line:?}");
    }
    for text in NO_ANSWERS {
        assert!(text.parse::<Answer>().is_err(), "{text:?}");
    }
}

/// A name is one for the types exactly if it is one for the archive, whatever its length and its bytes.
#[test]
fn names_are_judged_alike() {
    let mut answers = Answers::new();
    let lengths = (0..70).map(|length| "x".repeat(length));
    let bytes = (0..128u8).flat_map(|b| [format!("{}", b as char), format!("x{}", b as char)]);
    for name in lengths.chain(bytes) {
        let line = format!("S\t0\t0\t-\t{name}");
        let asked = answers.ask(TABLE.as_bytes(), line.as_bytes()).is_ok();
        assert_eq!(line.parse::<Question>().is_ok(), asked, "{name:?}");
    }
}

#[test]
fn every_refusal_has_a_kind_and_words() {
    let mut kinds = Vec::new();
    for number in 1..=14u8 {
        let refusal = each_refused(number);
        assert_eq!(refusal.number(), number);
        assert_eq!(refusal.kind.number(), number);
        assert_eq!(
            refusal.kind.is_of_table(),
            !matches!(number, 1 | 11 | 12 | 13)
        );
        assert!(!refusal.to_string().contains("unknown"), "{refusal}");
        assert!(!kinds.contains(&refusal.kind), "{refusal}");
        kinds.push(refusal.kind);
    }
    let newer = each_refused(200);
    assert_eq!(newer.kind, RefusalKind::Other(200));
    assert_eq!(newer.to_string(), "an unknown refusal (refusal 200)");
}

/// A refusal of this number, as a call for many questions would tell it.
fn each_refused(number: u8) -> Refusal {
    let line = format!("refused\t{number}\t0\n");
    let refused = each_answer(line.as_bytes()).next().expect("an answer");
    refused.expect_err("a refusal")
}

/// The papers fix no number of words, and at most 4,194,304.
#[test]
fn the_archive_tells_its_words_and_its_version() {
    assert_eq!(yifgrun::work_words(), 4_096);
    assert_eq!(yifgrun::version().to_string(), env!("CARGO_PKG_VERSION"));
}
