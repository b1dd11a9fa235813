//! What is said on standard output and standard error, and the exit status.

use std::io::{self, BufWriter, Stdout, Write};

/// The exit status; the worst counts.
#[derive(Clone, Copy, PartialEq, Eq, PartialOrd, Ord)]
pub enum Status {
    /// Every question was answered, and as due.
    Good,
    /// The table or a question was refused, or an answer is not as due.
    Refused,
    /// The command was wrongly used, or a file could not be read, written or compared.
    Failed,
}

/// Standard output. It is written in large pieces, and before each line on standard error, so that both keep their
/// order.
pub struct Output(BufWriter<Stdout>);

impl Output {
    pub fn new() -> Output {
        Output(BufWriter::new(io::stdout()))
    }

    pub fn print(&mut self, text: impl AsRef<[u8]>) -> Result<(), String> {
        self.0.write_all(text.as_ref()).map_err(trouble)
    }

    pub fn flush(&mut self) -> Result<(), String> {
        self.0.flush().map_err(trouble)
    }

    /// Says a line on standard error, behind all that was printed.
    pub fn tell(&mut self, what: &str) -> Result<(), String> {
        self.flush()?;
        tell(what);
        Ok(())
    }
}

fn trouble(error: io::Error) -> String {
    format!("standard output: {error}")
}

/// Says a line on standard error; where that is closed, there is nobody to say it to.
pub fn tell(what: &str) {
    let line = format!("yifgrun: {}\n", one_line(what));
    let _ = io::stderr().write_all(line.as_bytes());
}

/// A text with its control characters written out: file names and questions may have them.
pub fn one_line(text: &str) -> String {
    let escaped = |c: char| {
        if c.is_control() {
            c.escape_default().to_string()
        } else {
            c.to_string()
        }
    };
    text.chars().map(escaped).collect()
}

/// `no questions`, `1 question`, `4,310 questions`
pub fn counted(count: usize, what: &str) -> String {
    match count {
        0 => format!("no {what}s"),
        1 => format!("1 {what}"),
        _ => format!("{} {what}s", grouped(count)),
    }
}

/// A number with a comma before each three digits.
pub fn grouped(number: usize) -> String {
    if number < 1_000 {
        return number.to_string();
    }
    format!("{},{:03}", grouped(number / 1_000), number % 1_000)
}
