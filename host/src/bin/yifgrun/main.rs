//! Answers questions on a table of Go types at a terminal, as lines or in words, holds answers against those that are
//! due, and tidies tables.

mod answer;
mod arguments;
mod cause;
mod compare;
mod files;
mod input;
mod output;

use arguments::Task;
use input::Input;
use output::{Output, Status};
use std::env;
use std::ffi::OsString;
use std::process::ExitCode;
use yifgrun::Answers;

fn main() -> ExitCode {
    let arguments: Vec<OsString> = env::args_os().skip(1).collect();
    let mut output = Output::new();
    let run = run(&arguments, &mut output);
    let status = run.and_then(|status| output.flush().map(|()| status));
    let status = status.unwrap_or_else(|trouble| {
        output::tell(&trouble);
        Status::Failed
    });
    ExitCode::from(status as u8)
}

/// Prints the table of an input tidied.
fn tidy(input: &Input, output: &mut Output) -> Result<Status, String> {
    match Answers::new().tidy(input.table()) {
        Ok(table) => output.print(table).map(|()| Status::Good),
        Err(refusal) => {
            output.tell(&input.refused(refusal))?;
            Ok(Status::Refused)
        }
    }
}

/// How the questions fared, or why the command came to no end.
fn run(arguments: &[OsString], output: &mut Output) -> Result<Status, String> {
    match arguments::task(arguments)? {
        Task::Help => output.print(arguments::HELP).map(|()| Status::Good),
        Task::Version => {
            let version = format!("yifgrun {}\n", yifgrun::version());
            output.print(version).map(|()| Status::Good)
        }
        Task::Answer(manner, file, words) => {
            let input = Input::read(file.as_ref())?;
            if words.is_empty() {
                answer::whole(manner, &input, output)
            } else {
                answer::one(manner, &input, &arguments::question(&words), output)
            }
        }
        Task::Compare(paths) => compare::compare(&paths, output),
        Task::Tidy(file) => tidy(&Input::read(file.as_ref())?, output),
    }
}
