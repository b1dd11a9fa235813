//! The command `yifgrun`: what it prints, what it says on standard error, and its exit status. Most of it stands in
//! the transcripts of `testdata/command`; here is what they cannot show.

// Tests are built by the Rust of the day; `rust-version` is for those who link the library.
#![allow(clippy::incompatible_msrv)]

mod arguments;
#[path = "../bounds/mod.rs"]
mod bounds;
mod run;
mod streams;
#[path = "../transcript/mod.rs"]
mod transcript;

use std::fs;
use std::path::Path;

/// Makes the runs of a transcript again.
fn transcript(name: &str) {
    let folder = Path::new(env!("CARGO_MANIFEST_DIR")).join("testdata/command");
    let text = fs::read_to_string(folder.join(name)).expect("a transcript");
    transcript::compare(name, &text, 1, &folder);
}

#[test]
fn help_and_wrong_use() {
    transcript("help.txt");
}

#[test]
fn questions_answered() {
    transcript("ask.txt");
}

#[test]
fn answers_in_words() {
    transcript("explain.txt");
}

#[test]
fn answers_held_against_those_due() {
    transcript("compare.txt");
}

#[test]
fn tables_tidied() {
    transcript("tidy.txt");
}

#[test]
fn errors() {
    transcript("errors.txt");
}

#[test]
fn the_version_is_the_archives() {
    let version = format!("yifgrun {}\n", yifgrun::version());
    for arguments in [&["--version"][..], &["explain", "--version"]] {
        assert_eq!(run::run(arguments, ""), run::says(0, &version, ""));
    }
}

#[test]
fn a_transcript_is_read_as_it_is_meant() {
    let runs = transcript::runs("$ yifgrun a < b\nyes\n[1]\n$ yifgrun\n");
    let due = [(1, "yifgrun a < b", "yes\n[1]\n"), (4, "yifgrun", "")];
    let due = due.map(|(line, asked, prints)| transcript::Run {
        line,
        asked: asked.to_owned(),
        prints: prints.to_owned(),
    });
    assert_eq!(runs, due);
}

#[test]
#[should_panic(expected = "it:8: $ yifgrun -- -x\nstored:\nok\n")]
fn a_transcript_that_is_not_so_fails() {
    let folder = Path::new(env!("CARGO_MANIFEST_DIR")).join("testdata/command");
    transcript::compare("it", "$ yifgrun -- -x\nok\n", 8, &folder);
}
