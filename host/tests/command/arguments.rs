//! Questions as arguments and as lines of a file, in forms that a transcript cannot show.

use crate::bounds;
use crate::run::{file, run, says, FIRST, TABLE};

/// A table that contains itself by value: line 2.
const CYCLE: &str = "typetable\t1\nT\tarray\t3\t1\nT\tnamed\t0\n";

#[test]
fn the_words_of_a_question_are_its_fields() {
    let table = file("one", TABLE);
    let answer = says(0, "entry\t0\t1\t0\t0\n", "");
    assert_eq!(run(&[&table, "S", "7", "0", "0", "Close"], ""), answer);
    assert_eq!(run(&[&table, "S 7 0 0 Close"], ""), answer);
    assert_eq!(run(&[&table, " S\t7 0\t0", "Close "], ""), answer);
    assert_eq!(run(&["ask", "-", "S 7 0", "0 Close"], TABLE), answer);
}

#[test]
fn a_question_that_is_none() {
    let long = "x".repeat(bounds::QUESTION + 1);
    let shown = format!("{}..", &long[..64]);
    for (question, shown, cause) in [
        ("", "", "is empty"),
        (" ", "", "is empty"),
        (
            &*long,
            &*format!(" {shown}"),
            "has 257 bytes, more than 256",
        ),
        ("C\n0", " C\\n0", "has a newline"),
        ("C 0\r", " C 0\\r", "has a carriage return"),
        ("C é", " C é", "has the byte 195"),
    ] {
        let err = format!("yifgrun: question{shown}: the question {cause} (refusal 11)\n");
        assert_eq!(run(&["-", question], TABLE), says(1, "", &err));
    }
}

#[test]
fn a_file_of_questions() {
    let input = format!("{TABLE}Q\nS\t7\t0\t0\tClose\nM\t7\nC\t2");
    let answers = says(0, "entry\t0\t1\t0\t0\nset\t1\nsel\t0\t1\t0\t0\nno\n", "");
    assert_eq!(run(&[&file("questions", &input)], ""), answers);
    assert_eq!(run(&["-"], &input), answers);
    assert_eq!(run(&[], &format!("{TABLE}Q\n")), says(0, "", ""));
    let none = format!("{TABLE}Q\n");
    assert_eq!(run(&["explain"], &none), says(0, "", ""));
}

#[test]
fn a_refused_table_is_told_once() {
    let cycle =
        "yifgrun: standard input:2: a type contains itself by value (refusal 10): `T array 3 1`\n";
    for questions in ["", "Q\n", "Q\nV\nX\nV\n"] {
        let input = format!("{CYCLE}{questions}");
        assert_eq!(run(&[], &input), says(1, "", cycle));
        assert_eq!(run(&["explain"], &input), says(1, "", cycle));
    }
}

#[test]
fn a_table_past_a_bound() {
    let long = "yifgrun: standard input: the table has more than 65,536 bytes (refusal 2)\n";
    let table = "x".repeat(bounds::TEXT + 1);
    assert_eq!(run(&[], &table), says(1, "", long));
    assert_eq!(run(&["-", "V"], &table), says(1, "", long));
    let many = "too many: a 65th package, 513th type, 2,049th member, or 256th member of one type";
    let line = 1 + bounds::TYPES + 1;
    let many = format!("yifgrun: standard input:{line}: {many} (refusal 6): `T basic 2`\n");
    let types = "T\tbasic\t2\n".repeat(bounds::TYPES + 1);
    let table = format!("typetable\t1\n{types}");
    assert_eq!(run(&[], &table), says(1, "", &many));
}

/// Every line behind `Q` is a question with its line: an empty one, one with a carriage return, a NUL or a byte too
/// many.
#[test]
fn lines_of_wrong_form() {
    let long = "x".repeat(bounds::QUESTION + 1);
    let input = format!("{TABLE}Q\n\nC\t2\nC\t2\r\n\0\nC\t0\n{long}\nV\n\n");
    let (status, out, err) = run(&[], &input);
    assert_eq!((status, &*out), (1, "no\nyes\nok\t1\t9\t5\n"));
    let wrong = [
        (0, "is empty"),
        (2, "has a carriage return"),
        (3, "has the byte 0"),
        (5, "has 257 bytes, more than 256"),
        (7, "is empty"),
    ];
    let wrong = wrong.map(|(nth, cause)| {
        let line = FIRST + nth;
        format!("yifgrun: standard input:{line}: the question {cause} (refusal 11)\n")
    });
    assert_eq!(err, wrong.concat());
}

/// More questions than `typeask` reads, and more answers than a buffer has room for at first.
#[test]
fn a_file_of_many_questions() {
    let count = 20_000;
    let input = format!("{TABLE}Q\n{}", "S\t8\t0\t0\tLen\nM\t7\n".repeat(count));
    assert!(input.len() > bounds::TEXT);
    let answers = "ambiguous\t0\t0\nand\t1\t0\nset\t1\nsel\t0\t1\t0\t0\n".repeat(count);
    let many = file("many.in", &input);
    assert!(run(&[&many], "") == says(0, &answers, ""));
    file("many.out", &answers);
    let as_due = format!("{many}: 40,000 questions, as due\n");
    assert_eq!(run(&["compare", &many], ""), says(0, &as_due, ""));
}
