//! Standard output and standard error: their order, and what comes of one that takes nothing.

use crate::run::{file, TABLE};
use std::fs;
use std::io::{self, PipeWriter};
use std::process::Command;

fn yifgrun(arguments: &[&str]) -> Command {
    let mut command = Command::new(env!("CARGO_BIN_EXE_yifgrun"));
    command.args(arguments);
    command
}

/// Answers and refusals come in the order of the questions, where both go to one place.
#[test]
fn a_refusal_is_told_in_its_place() {
    let questions = "C\t2\nX\nM\t7\nN\t3\t7\t0\nV\n";
    let input = file("in_place", &format!("{TABLE}Q\n{questions}"));
    let both = file("in_place_out", "");
    let open = || fs::OpenOptions::new().append(true).open(&both);
    let (out, err) = (open().expect("the file opens"), open().expect("again"));
    let ran = yifgrun(&[&input]).stdout(out).stderr(err).status();
    assert_eq!(ran.expect("the command ends").code(), Some(1));
    let said = fs::read_to_string(&both).expect("text");
    let begins = said.lines().map(|line| match line.strip_suffix(")") {
        Some(refused) => refused.rsplit(' ').next().unwrap_or_default().to_owned(),
        None => line.to_owned(),
    });
    let due = ["no", "11", "set\t1", "sel\t0\t1\t0\t0", "12", "ok\t1\t9\t5"];
    assert_eq!(begins.collect::<Vec<_>>(), due);
}

/// A pipe that nobody reads.
fn closed() -> PipeWriter {
    io::pipe().expect("a pipe").1
}

#[test]
fn an_output_that_takes_nothing_is_told() {
    let few = file("few", &format!("{TABLE}Q\nV\n"));
    let many = file(
        "many_sets",
        &format!("{TABLE}Q\n{}", "M\t7\n".repeat(10_000)),
    );
    for arguments in [
        &[&*few][..],
        &[&many],
        &["explain", &few],
        &[&few, "V"],
        &["tidy", &few],
        &["--help"],
        &["--version"],
    ] {
        let ran = yifgrun(arguments).stdout(closed()).output();
        let ran = ran.expect("the command ends");
        let err = String::from_utf8(ran.stderr).expect("text");
        assert_eq!(ran.status.code(), Some(2), "{arguments:?}: {err}");
        assert_eq!(err, "yifgrun: standard output: Broken pipe (os error 32)\n");
    }
}

#[test]
fn errors_that_nobody_reads_keep_their_status() {
    let refused = file("refused", &format!("{TABLE}Q\nX\nV\n"));
    for (arguments, status, out) in [
        (&[&*refused][..], 1, "ok\t1\t9\t5\n"),
        (&[&refused, "X"], 1, ""),
        (&["--what"], 2, ""),
        (&["/no/such/file"], 2, ""),
    ] {
        let ran = yifgrun(arguments).stderr(closed()).output();
        let ran = ran.expect("the command ends");
        assert_eq!(ran.status.code(), Some(status), "{arguments:?}");
        assert_eq!(ran.stdout, out.as_bytes(), "{arguments:?}");
    }
}
