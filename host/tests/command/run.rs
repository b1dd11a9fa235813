//! Runs of the command on texts that a test makes.

use std::io::Write;
use std::path::PathBuf;
use std::process::{Command, Output, Stdio};
use std::{env, fs};

pub const TABLE: &str = "typetable\t1\nP\toffice/cat\nT\tbasic\t2\nT\ttuple\nT\tfunc\t0\t1\t1\nT\tnamed\t4\n\
    M\tClose\t0\t2\t1\nT\tstruct\nF\tLen\t0\t0\t0\nT\tpointer\t3\nT\tstruct\nF\tBlock\t0\t5\t1\nT\tnamed\t6\n\
    T\tstruct\nF\tA\t0\t3\t1\nF\tB\t0\t5\t1\n";

/// The line of the first question behind the table and its line `Q`.
pub const FIRST: usize = 18;

/// Runs the command on arguments and standard input, and gives its status, output and errors.
pub fn run(arguments: &[&str], input: &str) -> (i32, String, String) {
    let mut child = Command::new(env!("CARGO_BIN_EXE_yifgrun"))
        .args(arguments)
        .stdin(Stdio::piped())
        .stdout(Stdio::piped())
        .stderr(Stdio::piped())
        .spawn()
        .expect("the command starts");
    // A command that does not read its input may end before all is written.
    let _ = child
        .stdin
        .take()
        .expect("a pipe")
        .write_all(input.as_bytes());
    let Output {
        status,
        stdout,
        stderr,
    } = child.wait_with_output().expect("the command ends");
    let text = |bytes| String::from_utf8(bytes).expect("text");
    (status.code().expect("a status"), text(stdout), text(stderr))
}

/// A file of this name and text, in the tests' own folder.
pub fn file(name: &str, text: &str) -> String {
    let path = PathBuf::from(env!("CARGO_TARGET_TMPDIR")).join(name);
    fs::write(&path, text).expect("the folder takes a file");
    path.to_str().expect("a path that is text").to_owned()
}

pub fn says(status: i32, out: &str, err: &str) -> (i32, String, String) {
    (status, out.to_owned(), err.to_owned())
}
