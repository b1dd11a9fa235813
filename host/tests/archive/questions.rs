//! Many questions in one call: which lines of a text are questions, and that each gets what it gets alone.

use crate::bounds;
use crate::joined::{joined, lines};
use crate::lent::asked_all;
use crate::numbers::Numbers;
use yifgrun::{each_answer, work_words, Answers};

/// What the call gives in a buffer of so many bytes: the answers, or the number and line of a refusal.
pub fn given(table: &[u8], questions: &[u8], room: usize) -> Result<Vec<u8>, (u8, u16)> {
    let mut answers = vec![0; room];
    let work = &mut vec![0; work_words()];
    let length =
        asked_all(table, questions, &mut answers, work).map_err(|r| (r.number(), r.line))?;
    answers.truncate(length);
    Ok(answers)
}

const TABLE: &str =
    "typetable\t1\nP\ta\nT\tbasic\t2\nT\ttuple\nT\tfunc\t0\t1\t1\nT\tiface\nM\tRead\t0\t2\t0\n\
    T\tstruct\nF\tLen\t0\t0\t0\nT\tnamed\t4\nM\tRead\t0\t2\t1\nT\tpointer\t5\n\
    T\tstruct\nF\tA\t0\t5\t1\nF\tB\t0\t6\t1\n";

/// What stands for a question among the answers, by a letter: C of an int, V, an N whose second type is no interface, and
/// x for what has a wrong form.
fn stands_for(letter: char) -> &'static str {
    match letter {
        'C' => "yes\n",
        'V' => "ok\t1\t8\t5\n",
        'N' => "refused\t12\t0\n",
        'x' => "refused\t11\t0\n",
        _ => panic!("{letter}"),
    }
}

/// A text of questions gets what its letters stand for.
fn gets(questions: &[u8], letters: &str) {
    let due: String = letters.chars().map(stands_for).collect();
    let answers = given(TABLE.as_bytes(), questions, due.len() + 9);
    let text = answers.map(|answers| String::from_utf8(answers).expect("text"));
    assert_eq!(text, Ok(due), "{}", questions.escape_ascii());
}

/// What stands behind the last newline is a question unless it is empty; every line before it is one, an empty line too.
#[test]
fn every_line_is_a_question() {
    let rows = [
        ("", ""),
        ("V", "V"),
        ("V\n", "V"),
        ("\n", "x"),
        ("\n\n", "xx"),
        ("\n\n\n", "xxx"),
        ("V\n\n", "Vx"),
        ("\nV", "xV"),
        ("\nV\n", "xV"),
        ("V\nV", "VV"),
        ("V\n\nV", "VxV"),
        ("C\t0\n\n\nC\t0", "CxxC"),
        ("C\t0\nN\t0\t0\t0\nC\t9\nV", "CNxV"),
        ("N\t0\t0\t0", "N"),
        ("C\t9", "x"),
    ];
    for (questions, letters) in rows {
        gets(questions.as_bytes(), letters);
    }
}

/// Only a newline ends a question: a carriage return, a NUL or any other byte is part of it.
#[test]
fn other_bytes_are_parts_of_a_question() {
    for byte in (0..=255).filter(|&b| b != b'\n') {
        gets(&[b'V', byte], "x");
        gets(&[byte, b'\n'], if byte == b'V' { "V" } else { "x" });
        gets(&[b'V', byte, b'\n', b'V'], "xV");
        gets(&[b'V', b'\n', byte, b'V', b'\n'], "Vx");
    }
    let rows = [
        ("V\r\nV\r\n", "xx"),
        ("V\r\n\r\nV", "xxV"),
        ("\0\n\0", "xx"),
        ("V\n\0\nV", "VxV"),
        (" V\nV \nV", "xxV"),
        ("Q\nV\n", "xV"),
        ("V\\nV", "x"),
    ];
    for (questions, letters) in rows {
        gets(questions.as_bytes(), letters);
    }
}

/// Each line's own length is bounded, and not that of the text.
#[test]
fn long_questions_and_long_texts() {
    for bytes in [bounds::QUESTION, bounds::QUESTION + 1, 2 * bounds::TEXT] {
        let long = "x".repeat(bytes);
        gets(long.as_bytes(), "x");
        gets(format!("{long}\n").as_bytes(), "x");
        gets(format!("V\n{long}\nV").as_bytes(), "VxV");
    }
    // the longest that is answered, and one byte more, of a name that is too long by that alone
    let name = "n".repeat(64);
    let question = format!("S\t4\t0\t0\t{name}\nS\t4\t0\t0\t{name}n\nV");
    let due = format!("notfound\n{}{}", stands_for('x'), stands_for('V'));
    let answers = given(TABLE.as_bytes(), question.as_bytes(), 80);
    assert_eq!(answers, Ok(due.into_bytes()));
    let count = bounds::TEXT / 2;
    gets(&b"V\n".repeat(count), &"V".repeat(count));
    gets(&b"\n".repeat(count), &"x".repeat(count));
}

/// The table's refusal comes back whatever is asked, and if nothing is.
#[test]
fn refused_tables() {
    let refused = [
        ("", (3, 1)),
        ("typetable\t1", (3, 1)),
        ("typetable\t1\nx\n", (4, 2)),
        ("typetable\t1\nQ\n", (4, 2)),
        ("typetable\t1\nF\tX\t-\t0\t0\n", (5, 2)),
        ("typetable\t1\nT\tslice\t1\n", (7, 2)),
        ("typetable\t1\nT\tslice\t0\n", (8, 2)),
        ("typetable\t1\nT\tarray\t2\t1\nT\tnamed\t0\n", (10, 2)),
        ("typetable\t1\nP\ta\nP\ta\n", (14, 3)),
    ];
    let long = "x".repeat(bounds::TEXT + 1);
    let refused = refused.into_iter().chain([(&*long, (2, 0))]);
    for (table, due) in refused {
        for questions in ["", "\n", "V", "V\nV\n", "X\nC\t0\n"] {
            for room in [0, 13, 80] {
                let result = given(table.as_bytes(), questions.as_bytes(), room);
                assert_eq!(result, Err(due), "{questions:?} {room}");
            }
        }
    }
}

/// Lines that may be asked on `TABLE`: of every letter and every refusal, and of no form.
const LINES: [&str; 24] = [
    "S\t6\t0\t0\tLen",
    "S\t7\t0\t0\tLen",
    "S\t7\t1\t0\tRead",
    "S\t5\t0\t0\tRead",
    "S\t6\t0\t-\tOpen",
    "M\t3",
    "M\t5",
    "M\t6",
    "M\t7",
    "N\t5\t3\t1",
    "N\t6\t3\t1",
    "N\t6\t4\t1",
    "N\t0\t9\t1",
    "I\t3\t3",
    "I\t4\t5",
    "C\t4",
    "C\t2",
    "C\t9",
    "V",
    "V\t",
    "",
    "\r",
    "\0",
    "sel\t0\t1\t0",
];

/// A text of some of these lines, with or without its last newline.
fn text(numbers: &mut Numbers) -> Vec<u8> {
    let count = numbers.below(12);
    let lines: Vec<&str> = (0..count)
        .map(|_| LINES[numbers.below(LINES.len())])
        .collect();
    let mut text = lines.join("\n").into_bytes();
    if numbers.below(2) == 0 {
        text.push(b'\n');
    }
    // now and then a byte of it is another
    if numbers.below(4) == 0 && !text.is_empty() {
        let at = numbers.below(text.len());
        text[at] = numbers.below(256) as u8;
    }
    text
}

/// The answers are those that each question gets alone, joined; in a byte less of room, 13.
#[test]
fn random_texts_get_what_their_lines_get_alone() {
    let mut numbers = Numbers(1);
    let mut answers = Answers::new();
    for _ in 0..4_000 {
        let (table, questions) = (TABLE.as_bytes(), text(&mut numbers));
        let due = joined(table, &questions).expect("the table loads");
        let shown = questions.escape_ascii();
        let rooms = [
            due.len(),
            due.len() + 1 + numbers.below(40),
            due.len().saturating_sub(1),
            due.len() / 2,
        ];
        for room in rooms {
            let fits = due.len() <= room;
            let due = if fits { Ok(due.clone()) } else { Err((13, 0)) };
            assert_eq!(given(table, &questions, room), due, "{shown}");
        }
        assert_eq!(answers.ask_all(table, &questions), Ok(&*due), "{shown}");
    }
}

/// What is given is parted again into the answer to each question, or its refusal.
#[test]
fn random_answers_are_parted() {
    let mut numbers = Numbers(2);
    let (mut answers, mut one) = (Answers::new(), Answers::new());
    for _ in 0..1_000 {
        let (table, questions) = (TABLE.as_bytes(), text(&mut numbers));
        let all = answers.ask_all(table, &questions).expect("the table loads");
        let each: Vec<_> = each_answer(all).map(|a| a.map(<[u8]>::to_vec)).collect();
        let alone = lines(&questions).map(|question| one.ask(table, question).map(<[u8]>::to_vec));
        assert!(alone.eq(each), "{}", questions.escape_ascii());
    }
}
