//! What the arguments ask for.

use crate::answer::Manner;
use std::ffi::OsString;

pub const HELP: &str = "\
Answers questions on a table of Go types.

usage: yifgrun [ask] [--] TABLE QUESTION..     one question on the table in the file TABLE
       yifgrun [ask] [--] [FILE]               every question of FILE: a table, a line `Q`, questions, a line each
                                               (without the line `Q`: the question V)
       yifgrun explain [--] TABLE QUESTION..   the answer in words
       yifgrun explain [--] [FILE]             every question of FILE, and its answer in words
       yifgrun compare [--] PATH..             every question of the files X.in, or of those in a folder, against
                                               the answers that are due in X.out beside it
       yifgrun tidy [--] [FILE]                the table of FILE with one type of each set of identical types
       yifgrun --version
       yifgrun --help, -h

`-`, or no file, is standard input. `--` ends options and command words, so that a file may be named `ask` or `-x`.
The words of QUESTION are its fields, parted by blanks or tabs; in a file fields are parted by one tab.

  S t a pkg name   the field or method `name` of the type t; a is 1 if the operand is addressable;
                   pkg is the package that asks, or - for none
  M t              the method set of t
  N t i s          whether t has the methods of the interface i, or which is missing; s is 1 for a static check
  I x y            whether the types x and y are identical
  C t              whether values of t can be compared
  V                whether the table loads, and its numbers of packages, types and members

exit status: 0 if every question was answered, and as due; 1 if the table or a question was refused, or an answer is
not as due; 2 if the command was wrongly used, or a file could not be read, written or compared
";

/// What is to be done.
pub enum Task {
    Help,
    Version,
    /// The question of these words on the table of a file, or without words every question of the file.
    Answer(Manner, OsString, Vec<OsString>),
    Compare(Vec<OsString>),
    Tidy(OsString),
}

enum Command {
    Answer(Manner),
    Compare,
    Tidy,
}

/// The task of the arguments, or what is wrong with them.
pub fn task(arguments: &[OsString]) -> Result<Task, String> {
    let (command, behind) = command(arguments);
    let first = behind.first().map(|word| word.to_string_lossy());
    let operands = match first.as_deref() {
        Some("-h" | "--help") => return Ok(Task::Help),
        Some("--version") => return Ok(Task::Version),
        Some("--") => &behind[1..],
        Some(option) if option.starts_with('-') && option != "-" => {
            return Err(usage(&format!("no option {option}")));
        }
        _ => behind,
    };
    match (command, operands) {
        (Command::Answer(manner), []) => Ok(Task::Answer(manner, "-".into(), Vec::new())),
        (Command::Answer(manner), [file, words @ ..]) => {
            Ok(Task::Answer(manner, file.clone(), words.to_vec()))
        }
        (Command::Compare, []) => Err(usage("compare needs files X.in or folders")),
        (Command::Compare, paths) => Ok(Task::Compare(paths.to_vec())),
        (Command::Tidy, []) => Ok(Task::Tidy("-".into())),
        (Command::Tidy, [file]) => Ok(Task::Tidy(file.clone())),
        (Command::Tidy, _) => Err(usage("tidy takes one file")),
    }
}

/// The command, which is `ask` where no word says another, and the arguments behind its word.
fn command(arguments: &[OsString]) -> (Command, &[OsString]) {
    let word = arguments.first().map(|word| word.to_string_lossy());
    let command = match word.as_deref() {
        Some("ask") => Command::Answer(Manner::Lines),
        Some("explain") => Command::Answer(Manner::Words),
        Some("compare") => Command::Compare,
        Some("tidy") => Command::Tidy,
        _ => return (Command::Answer(Manner::Lines), arguments),
    };
    (command, &arguments[1..])
}

fn usage(trouble: &str) -> String {
    format!("{trouble} (yifgrun --help has the usage)")
}

/// The words of a question as one line.
pub fn question(words: &[OsString]) -> Vec<u8> {
    let words: Vec<_> = words.iter().map(|word| word.to_string_lossy()).collect();
    let fields = words.iter().flat_map(|word| word.split([' ', '\t']));
    let fields: Vec<&str> = fields.filter(|field| !field.is_empty()).collect();
    fields.join("\t").into_bytes()
}
