//! Transcripts of the command `yifgrun`: a line `$ yifgrun ..`, then what it prints, on standard output and standard
//! error in their order, then `[1]` for an exit status other than 0; and the next. `< FILE` at the end of a line `$`
//! gives standard input, which is empty otherwise. Words are parted by blanks; there is no shell.

// Each test takes what it needs.
#![allow(dead_code)]

use std::fs::File;
use std::io::{self, Read};
use std::path::Path;
use std::process::{Command, ExitStatus, Stdio};

/// A run of the command: its line behind `$ `, what is printed with the status behind it, and the line where it stands.
#[derive(Debug, PartialEq, Eq)]
pub struct Run {
    pub line: usize,
    pub asked: String,
    pub prints: String,
}

/// The runs of a transcript. It begins with one.
pub fn runs(text: &str) -> Vec<Run> {
    let mut runs: Vec<Run> = Vec::new();
    for (line, n) in text.split_inclusive('\n').zip(1..) {
        if let Some(asked) = line.strip_prefix("$ ") {
            runs.push(Run {
                line: n,
                asked: asked.trim_end().to_owned(),
                prints: String::new(),
            });
            continue;
        }
        let last = runs.last_mut();
        last.expect("a transcript begins with `$ `").prints += line;
    }
    runs
}

/// What a run prints now, made in a folder.
pub fn printed(asked: &str, folder: &Path) -> String {
    let (words, input) = match asked.split_once(" < ") {
        Some((words, file)) => (words, open(&folder.join(file))),
        None => (asked, Stdio::null()),
    };
    let mut words = words.split(' ');
    assert_eq!(words.next(), Some("yifgrun"), "no other command: {asked}");
    let (mut text, status) = run(words, input, folder);
    if let Some(code @ 1..) = status.code() {
        text += &format!("[{code}]\n");
    }
    text
}

/// Runs the command with both of its outputs in one pipe.
fn run<'a>(
    words: impl Iterator<Item = &'a str>,
    input: Stdio,
    folder: &Path,
) -> (String, ExitStatus) {
    let (mut reader, writer) = io::pipe().expect("a pipe");
    let mut command = Command::new(env!("CARGO_BIN_EXE_yifgrun"));
    command.args(words).current_dir(folder).stdin(input);
    command.stdout(writer.try_clone().expect("a second end"));
    command.stderr(writer);
    let mut child = command.spawn().expect("the command starts");
    // The pipe ends when the command does, and not before this end of it is closed.
    drop(command);
    let mut text = String::new();
    reader.read_to_string(&mut text).expect("it prints text");
    (text, child.wait().expect("the command ends"))
}

fn open(file: &Path) -> Stdio {
    let file = File::open(file).unwrap_or_else(|error| panic!("{}: {error}", file.display()));
    file.into()
}

/// Makes every run of a transcript again, and compares to the byte. `name` is what it is called, and its lines count
/// from `first`.
pub fn compare(name: &str, text: &str, first: usize, folder: &Path) {
    let runs = runs(text);
    assert!(!runs.is_empty(), "{name}: no run");
    for run in runs {
        let now = printed(&run.asked, folder);
        let (line, asked) = (first + run.line - 1, &run.asked);
        assert!(
            now == run.prints,
            "{name}:{line}: $ {asked}\nstored:\n{}\nnow:\n{now}",
            run.prints
        );
    }
}
