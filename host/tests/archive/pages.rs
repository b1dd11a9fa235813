//! Each buffer against a page that may not be touched, before it and behind it; table and question also may not be
//! written. Any access outside what was lent is a fault.

use crate::bounds;
use crate::fenced::{Fenced, Side};
use crate::joined::joined;
use crate::lent::{asked, asked_all, tidied};
use crate::said::say;
use crate::stored::cases;
use crate::tidy::stored;
use crate::typeask::{parted, texts, Ask};
use yifgrun::{work_words, Refusal};

const SIDES: [Side; 2] = [Side::Front, Side::Back];

/// The four buffers, each in pages of its own.
struct Pages {
    table: Fenced,
    question: Fenced,
    answer: Fenced,
    work: Fenced,
}

/// The side of each buffer: table, question, answer, work.
type Sides = [Side; 4];

impl Pages {
    fn new() -> Pages {
        Pages {
            table: Fenced::new(1 << 17),
            question: Fenced::new(1 << 17),
            answer: Fenced::new(1 << 20),
            work: Fenced::new(4 * (work_words() + 1_000)),
        }
    }

    /// A question with each buffer on its side, and the answer.
    fn ask(
        &mut self,
        sides: Sides,
        asked_of: (&[u8], &[u8]),
        lent: (usize, usize),
    ) -> Result<Vec<u8>, Refusal> {
        self.call(asked, sides, asked_of, lent)
    }

    /// Questions in one call, likewise, and the answers.
    fn ask_all(
        &mut self,
        sides: Sides,
        asked_of: (&[u8], &[u8]),
        lent: (usize, usize),
    ) -> Result<Vec<u8>, Refusal> {
        self.call(asked_all, sides, asked_of, lent)
    }

    /// A table tidied, likewise; no question is lent.
    fn tidy(
        &mut self,
        sides: Sides,
        table: &[u8],
        lent: (usize, usize),
    ) -> Result<Vec<u8>, Refusal> {
        let tidy: Ask = |table, _, output, work| tidied(table, output, work);
        self.call(tidy, sides, (table, b""), lent)
    }

    fn call(
        &mut self,
        call: Ask,
        [table_side, question_side, answer_side, work_side]: Sides,
        (table, question): (&[u8], &[u8]),
        (room, words): (usize, usize),
    ) -> Result<Vec<u8>, Refusal> {
        let table = self.table.copy(table, table_side);
        let question = self.question.copy(question, question_side);
        let answer = self.answer.bytes(room, answer_side);
        let work = self.work.words(words, work_side);
        let length = call(table, question, answer, work)?;
        Ok(answer[..length].to_vec())
    }
}

/// Every choice of four sides.
fn all_sides() -> Vec<Sides> {
    let side = |n: usize, k: usize| SIDES[n >> k & 1];
    (0..16)
        .map(|n| [side(n, 0), side(n, 1), side(n, 2), side(n, 3)])
        .collect()
}

#[test]
fn stored_questions_touch_only_what_is_lent() {
    let mut pages = Pages::new();
    let cases = cases();
    let mut calls = 0;
    for case in &cases {
        let (table, mut questions) = parted(&case.input);
        questions.sort_unstable();
        questions.dedup();
        // The second time the room is just the answer's length, so that the page behind follows its last byte.
        for question in questions {
            let room = pages
                .ask([Side::Front; 4], (table, question), (1 << 14, work_words()))
                .map_or(64, |answer| answer.len());
            let back = pages.ask([Side::Back; 4], (table, question), (room, work_words()));
            assert!(
                back.map_or(64, |answer| answer.len()) == room,
                "{}",
                case.name
            );
            calls += 2;
        }
    }
    say(&format!(
        "{calls} calls between pages that may not be touched"
    ));
}

/// All questions of an input in one call, with just the room for their answers on both sides, and with a byte less.
#[test]
fn stored_texts_touch_only_what_is_lent() {
    let mut pages = Pages::new();
    for case in cases() {
        let (table, questions) = texts(&case.input);
        let due = joined(table, questions);
        let room = due.as_ref().map_or(64, Vec::len);
        for side in SIDES {
            let lent = (room, work_words());
            let given = pages.ask_all([side; 4], (table, questions), lent);
            assert!(given == due, "{}", case.name);
            let lent = (room.saturating_sub(1), work_words());
            let given = pages.ask_all([side; 4], (table, questions), lent);
            let short = due.as_ref().is_ok_and(|answers| !answers.is_empty());
            let number = given.map_err(|refusal| refusal.number());
            assert_eq!(number == Err(13), short, "{}", case.name);
        }
    }
}

/// Stored tables tidied, with just the room for the output on both sides, with a byte less, and with none.
#[test]
fn stored_tables_are_tidied_within_what_is_lent() {
    let mut pages = Pages::new();
    let calls = stored();
    for call in &calls {
        let due = pages.tidy([Side::Front; 4], &call.table, (1 << 17, work_words()));
        let room = due.as_ref().map_or(0, Vec::len);
        for sides in all_sides() {
            let given = pages.tidy(sides, &call.table, (room, work_words()));
            assert!(given == due, "{}", call.table.escape_ascii());
            for room in [room.saturating_sub(1), 0] {
                let given = pages.tidy(sides, &call.table, (room, work_words()));
                let number = given.map_err(|refusal| refusal.number());
                let due = due.as_ref().map_or_else(Refusal::number, |_| 13);
                assert_eq!(number, Err(due), "{}", call.table.escape_ascii());
            }
            let given = pages.tidy(sides, &call.table, (room, work_words() - 1));
            assert_eq!(given.map_err(|refusal| refusal.number()), Err(1));
        }
    }
    say(&format!(
        "{} tables tidied between pages that may not be touched",
        calls.len()
    ));
}

const TABLE: &str =
    "typetable\t1\nP\ta\nT\tbasic\t2\nT\ttuple\nT\tfunc\t0\t1\t1\nT\tiface\nM\tRead\t0\t2\t0\n\
    T\tstruct\nF\tLen\t0\t0\t0\nT\tnamed\t4\nM\tRead\t0\t2\t1\nT\tpointer\t5\n\
    T\tstruct\nF\tA\t0\t5\t1\nF\tB\t0\t6\t1\n";

const QUESTIONS: [&str; 10] = [
    "S\t6\t0\t0\tLen",
    "S\t7\t0\t0\tLen",
    "M\t6",
    "N\t5\t3\t1",
    "N\t6\t4\t1",
    "I\t3\t3",
    "C\t4",
    "V",
    "C\t9",
    "",
];

/// Every choice of sides, with damaged tables and questions, tables whose last line is a package, short rooms and short work
/// areas, and nothing at all.
#[test]
fn every_choice_of_sides() {
    let mut pages = Pages::new();
    let table = TABLE.as_bytes();
    let tables = [
        table,
        &table[..table.len() - 1],
        &table[..15],
        &[],
        b"typetable\t1\nP\ta\nP\tab\n",
        b"typetable\t1\nP\tab\nP\ta\n",
    ];
    let rooms = [0, 1, 3, 16, 40];
    let words = [0, 1, work_words() - 1, work_words(), work_words() + 1];
    for sides in all_sides() {
        for question in QUESTIONS {
            for lent in rooms.iter().flat_map(|&r| words.map(|w| (r, w))) {
                for table in tables {
                    let result = pages.ask(sides, (table, question.as_bytes()), lent);
                    let few = matches!(result, Err(refusal) if refusal.number() == 1);
                    assert_eq!(few, lent.1 < work_words(), "{question} {lent:?}");
                }
            }
        }
    }
}

/// The same for many questions in one call: all of these, without the last newline, none, and empty ones.
#[test]
fn every_choice_of_sides_for_many_questions() {
    let mut pages = Pages::new();
    let all = QUESTIONS.join("\n").into_bytes();
    let long = [&all[..], &[b'x'; bounds::QUESTION + 1]].concat();
    let texts = [
        &all[..all.len() - 1],
        &all,
        &long,
        b"",
        b"\n",
        b"\n\n",
        b"V",
    ];
    let table = TABLE.as_bytes();
    let tables = [table, &table[..15], &[], b"typetable\t1\nP\tab\nP\ta\n"];
    for (table, questions) in tables.iter().flat_map(|t| texts.map(|q| (*t, q))) {
        let due = joined(table, questions);
        let length = due.as_ref().map_or(0, Vec::len);
        for sides in all_sides() {
            let rooms = [0, 12, length.saturating_sub(1), length, length + 1];
            let words = [0, work_words() - 1, work_words(), work_words() + 1];
            for lent in rooms.iter().flat_map(|&r| words.map(|w| (r, w))) {
                let given = pages.ask_all(sides, (table, questions), lent);
                let given = given.map_err(|refusal| refusal.number());
                let due = match &due {
                    _ if lent.1 < work_words() => Err(1),
                    Ok(answers) if answers.len() > lent.0 => Err(13),
                    Ok(answers) => Ok(answers.clone()),
                    Err(refusal) => Err(refusal.number()),
                };
                assert_eq!(given, due, "{lent:?} {}", questions.escape_ascii());
            }
        }
    }
}

/// A table that loads, of just so many bytes: its last line is a long tuple.
fn filled(bytes: usize) -> Vec<u8> {
    let start = |path: &str| format!("{}T\ttuple", TABLE.replace("P\ta\n", path));
    let mut text = start("P\ta\n");
    if (bytes - text.len()).is_multiple_of(2) {
        text = start("P\tab\n");
    }
    let entries = (bytes - text.len() - 1) / 2;
    text += &"\t0".repeat(entries);
    text += "\n";
    assert_eq!(text.len(), bytes);
    text.into_bytes()
}

/// Tables and questions of every length around the longest that are taken.
#[test]
fn longest_tables_and_questions() {
    let mut pages = Pages::new();
    for side in SIDES {
        for bytes in bounds::TEXT - 8..bounds::TEXT + 8 {
            let result = pages.ask([side; 4], (&filled(bytes), b"V"), (40, work_words()));
            let due = match bytes {
                ..=bounds::TEXT => Ok(b"ok\t1\t9\t5\n".to_vec()),
                _ => Err(2),
            };
            assert_eq!(result.map_err(|refusal| refusal.number()), due, "{bytes}");
            let result = pages.ask_all([side; 4], (&filled(bytes), b"V\nV"), (22, work_words()));
            let due = due.map(|answer| answer.repeat(2));
            assert_eq!(result.map_err(|refusal| refusal.number()), due, "{bytes}");
        }
        for bytes in [
            bounds::QUESTION - 1,
            bounds::QUESTION,
            bounds::QUESTION + 1,
            4_000,
        ] {
            for byte in [b'S', b'\t', b'0', 0, 255] {
                let question = vec![byte; bytes];
                let asked = (TABLE.as_bytes(), &*question);
                let result = pages.ask([side; 4], asked, (40, work_words()));
                assert_eq!(result.map_err(|refusal| refusal.number()), Err(11));
                let result = pages.ask_all([side; 4], asked, (13, work_words()));
                assert_eq!(result, Ok(b"refused\t11\t0\n".to_vec()));
            }
        }
    }
}
