//! The lengths of the answer buffer and of the work area, and what a call leaves in them.

use crate::bounds;
use crate::lent::{asked, asked_all};
use crate::questions::given;
use std::thread;
use yifgrun::{ask, ask_all, work_words, Answers};

const TABLE: &str = "typetable\t1\nP\toffice/cat\nT\tbasic\t2\nT\ttuple\nT\tfunc\t0\t1\t1\nT\tnamed\t4\n\
    M\tClose\t0\t2\t1\nT\tstruct\nF\tLen\t0\t0\t0\nT\tpointer\t3\nT\tstruct\nF\tBlock\t0\t5\t1\nT\tnamed\t6\n\
    T\tiface\nM\tClose\t0\t2\t0\nM\tOpen\t0\t2\t0\nT\tstruct\nF\tA\t0\t3\t1\nF\tB\t0\t5\t1\n";

/// A question of each letter and form with its answer.
const ANSWERS: [(&str, &str); 14] = [
    ("S\t7\t0\t0\tClose", "entry\t0\t1\t0\t0\n"),
    ("S\t3\t0\t0\tClose", "badreceiver\n"),
    ("S\t9\t0\t0\tLen", "ambiguous\t0\t0\nand\t1\t0\n"),
    ("S\t7\t0\t0\tOpen", "notfound\n"),
    ("M\t3", "set\t0\n"),
    ("M\t7", "set\t1\nsel\t0\t1\t0\t0\n"),
    ("M\t8", "set\t2\nsel\t3\t1\t0\nsel\t4\t1\t1\n"),
    ("N\t7\t8\t0", "missing\t4\t0\n"),
    ("N\t8\t8\t1", "satisfied\n"),
    ("I\t3\t3", "yes\n"),
    ("I\t3\t7", "no\n"),
    ("C\t2", "no\n"),
    ("C\t7", "yes\n"),
    ("V", "ok\t1\t10\t7\n"),
];

/// All these questions as a text, and all answers.
fn all_in_one() -> [String; 2] {
    let questions = ANSWERS.map(|(question, _)| question.to_owned() + "\n");
    let answers = ANSWERS.map(|(_, answer)| answer);
    [questions.concat(), answers.concat()]
}

#[test]
fn answer_buffers_of_every_length() {
    for (question, due) in ANSWERS {
        for room in 0..=40 {
            let mut answer = vec![0; room];
            let result = asked(
                TABLE.as_bytes(),
                question.as_bytes(),
                &mut answer,
                &mut vec![0; work_words()],
            );
            if room < due.len() {
                assert_eq!(result.map_err(|r| (r.number(), r.line)), Err((13, 0)));
            } else {
                let length = result.expect("there is room");
                assert_eq!(&answer[..length], due.as_bytes(), "{question} {room}");
            }
        }
    }
}

/// Answers of every letter, refused questions between them and a set of forty methods: in every buffer that is shorter
/// than all of it nothing is written.
#[test]
fn buffers_of_every_length_for_many_answers() {
    let sel = |n: usize| format!("sel\t{}\t1\t{n}\n", n + 7);
    let methods: String = (0..40).map(|n| format!("M\tM{n:02}\t0\t2\t0\n")).collect();
    let table = format!("{TABLE}T\tiface\n{methods}");
    let [questions, answers] = all_in_one();
    let questions = format!("X\n{questions}N\t7\t7\t0\nM\t10\n\nC\t7");
    let answers = answers.replace("ok\t1\t10\t7", "ok\t1\t11\t47");
    let sels: String = (0..40).map(sel).collect();
    let due =
        format!("refused\t11\t0\n{answers}refused\t12\t0\nset\t40\n{sels}refused\t11\t0\nyes\n");
    for room in 0..=due.len() + 1 {
        let answers = given(table.as_bytes(), questions.as_bytes(), room);
        if room < due.len() {
            assert_eq!(answers, Err((13, 0)), "{room}");
        } else {
            assert_eq!(answers, Ok(due.clone().into_bytes()), "{room}");
        }
    }
}

/// A refusal of the table or the question comes before refusal 13, whatever the room.
#[test]
fn refusals_come_before_the_rooms() {
    let damaged = TABLE.replace("F\tLen", "F\t1en");
    let disordered = TABLE.replace("P\t", "P\toffice/dog\nP\t");
    let refusals = [
        (TABLE, "V\t", (11, 0)),
        (TABLE, "N\t7\t7\t0", (12, 0)),
        (TABLE, "N\t7\t99\t0", (11, 0)),
        (&damaged, "V", (4, 9)),
        (&disordered, "V", (14, 3)),
        (&disordered, "X", (14, 3)),
    ];
    for (table, question, due) in refusals {
        for room in 0..=40 {
            let mut answer = vec![0; room];
            let result = asked(
                table.as_bytes(),
                question.as_bytes(),
                &mut answer,
                &mut vec![0; work_words()],
            );
            assert_eq!(result.map_err(|r| (r.number(), r.line)), Err(due));
        }
    }
}

/// Every word of a work area is 0 behind a call, however long it is; the answers are the same.
#[test]
fn work_areas_that_are_longer() {
    let lengths = (work_words()..work_words() + 70).chain([5_000, 8_192, 65_536, 4_194_304]);
    let [questions, due] = all_in_one();
    for words in lengths {
        let mut work = vec![0; words];
        let (table, mut answers) = (TABLE.as_bytes(), [0; 400]);
        let result = asked_all(table, questions.as_bytes(), &mut answers, &mut work);
        assert_eq!(&answers[..result.expect("answers")], due.as_bytes());
        for (question, due) in ANSWERS {
            if words > 100_000 && question != "I\t3\t7" {
                continue;
            }
            let mut answer = [0; 80];
            let result = asked(
                TABLE.as_bytes(),
                question.as_bytes(),
                &mut answer,
                &mut work,
            );
            assert_eq!(&answer[..result.expect("an answer")], due.as_bytes());
        }
    }
}

/// Refusal 1 comes first, for every shorter length, whatever else is wrong; it leaves everything.
#[test]
fn work_areas_that_are_shorter() {
    let calls = [
        (TABLE, "M\t8", 80),
        (TABLE, "M\t8", 0),
        (TABLE, "X", 80),
        ("", "", 0),
    ];
    let mut work = vec![0; work_words()];
    for words in 0..work_words() {
        for (table, question, room) in calls {
            let mut answer = vec![0; room];
            let work = &mut work[..words];
            for call in [asked, asked_all] {
                let result = call(table.as_bytes(), question.as_bytes(), &mut answer, work);
                assert_eq!(result.map_err(|r| (r.number(), r.line)), Err((1, 0)));
            }
        }
    }
}

/// Nothing is left of a call that could change the next.
#[test]
fn calls_are_independent() {
    let mut work = vec![0; work_words()];
    let [questions, all] = all_in_one();
    for _ in 0..3 {
        let (table, mut answers) = (TABLE.as_bytes(), [0; 400]);
        let length = ask_all(table, questions.as_bytes(), &mut answers, &mut work);
        assert_eq!(&answers[..length.expect("answers")], all.as_bytes());
        for (question, due) in ANSWERS {
            let mut answer = [0; 80];
            let length = ask(
                TABLE.as_bytes(),
                question.as_bytes(),
                &mut answer,
                &mut work,
            );
            assert_eq!(&answer[..length.expect("an answer")], due.as_bytes());
        }
    }
}

/// Calls on different buffers may run at the same time.
#[test]
fn calls_run_side_by_side() {
    thread::scope(|scope| {
        for _ in 0..4 {
            scope.spawn(|| {
                let mut answers = Answers::new();
                let [questions, all] = all_in_one();
                for _ in 0..500 {
                    let given = answers.ask_all(TABLE.as_bytes(), questions.as_bytes());
                    assert_eq!(given, Ok(all.as_bytes()));
                    for (question, due) in ANSWERS {
                        let answer = answers.ask(TABLE.as_bytes(), question.as_bytes());
                        assert_eq!(answer, Ok(due.as_bytes()));
                    }
                }
            });
        }
    });
}

/// A table, a question and its answer, a method set that is longer than a mebibyte: the methods of six interfaces, as many
/// levels below as there are types for.
fn long_set() -> [String; 3] {
    const PARTS: usize = 6;
    const METHODS: usize = bounds::MEMBERS_OF_ONE;
    let mut table = "typetable\t1\nT\ttuple\nT\tfunc\t0\t0\t0\n".to_owned();
    for part in 0..PARTS {
        table += "T\tiface\n";
        for n in 0..METHODS {
            table += &format!("M\tM{part}{n:03}\t-\t1\t0\n");
        }
    }
    table += "T\tstruct\n";
    for part in 0..PARTS {
        table += &format!("F\tE{part}\t-\t{}\t1\n", part + 2);
    }
    let (lowest, last) = (PARTS + 2, bounds::TYPES - 1);
    for below in lowest..last {
        table += &format!("T\tstruct\nF\tE\t-\t{below}\t1\n");
    }
    let (count, down) = (PARTS * METHODS, "\t0".repeat(last - lowest));
    let mut answer = format!("set\t{count}\n");
    for k in 0..count {
        answer += &format!("sel\t{k}\t1{down}\t{}\t{}\n", k / METHODS, k % METHODS);
    }
    assert!(answer.len() > 1 << 20);
    [table, format!("M\t{last}"), answer]
}

#[test]
fn long_answers_are_whole() {
    let [table, question, due] = long_set();
    let mut answers = Answers::new();
    let answer = answers.ask(table.as_bytes(), question.as_bytes());
    assert!(answer == Ok(due.as_bytes()));
}

/// Several in one call, more than a buffer for one answer has room for, and in buffers that have just the room or a byte less.
#[test]
fn long_answers_in_one_call_are_whole() {
    let [table, question, due] = long_set();
    let (table, times) = (table.as_bytes(), 8);
    let questions = format!("{question}\nX\n").repeat(times);
    let due = format!("{due}refused\t11\t0\n").repeat(times);
    assert!(due.len() > 1 << 23);
    let mut answers = Answers::new();
    assert!(answers.ask_all(table, questions.as_bytes()) == Ok(due.as_bytes()));
    assert!(answers.ask_all(table, b"X") == Ok(b"refused\t11\t0\n"));
    assert!(given(table, questions.as_bytes(), due.len() - 1) == Err((13, 0)));
    assert!(given(table, questions.as_bytes(), due.len()) == Ok(due.into_bytes()));
}
