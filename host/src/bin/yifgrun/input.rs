//! A file of a table, and perhaps a line `Q` and questions.

use crate::cause;
use std::ffi::OsStr;
use std::fs;
use std::io::{self, Read};
use yifgrun::Refusal;

/// An input, with the name that errors tell.
pub struct Input {
    pub name: String,
    bytes: Vec<u8>,
    /// The bytes of the table, and what is in front of the questions.
    table: usize,
    before: usize,
}

const END_OF_TABLE: &[u8] = b"Q\n";

impl Input {
    /// Reads a file, or for `-` standard input.
    pub fn read(file: &OsStr) -> Result<Input, String> {
        let mut bytes = Vec::new();
        let (name, read) = if file == "-" {
            let read = io::stdin().read_to_end(&mut bytes);
            ("standard input".to_owned(), read.map(|_| bytes))
        } else {
            (file.to_string_lossy().into_owned(), fs::read(file))
        };
        match read {
            Ok(bytes) => Ok(Input::of(name, bytes)),
            Err(error) => Err(format!("{name}: {error}")),
        }
    }

    fn of(name: String, bytes: Vec<u8>) -> Input {
        let mut table = 0;
        let mut lines = bytes.split_inclusive(|&b| b == b'\n');
        let ends = lines.any(|line| {
            table += line.len();
            line == END_OF_TABLE
        });
        let before = table;
        if ends {
            table -= END_OF_TABLE.len();
        }
        Input {
            name,
            bytes,
            table,
            before,
        }
    }

    pub fn table(&self) -> &[u8] {
        &self.bytes[..self.table]
    }

    /// The questions' text: what stands behind the line `Q`, or without that line a V.
    pub fn questions(&self) -> &[u8] {
        if self.table == self.before {
            return b"V";
        }
        &self.bytes[self.before..]
    }

    /// The questions, without their newlines, each with its line in the file.
    pub fn each_question(&self) -> impl Iterator<Item = (usize, &[u8])> {
        let before = self.bytes[..self.before].iter();
        let first = before.filter(|&&b| b == b'\n').count() + 1;
        let lines = self.questions().split_inclusive(|&b| b == b'\n');
        let bare = lines.map(|line| line.strip_suffix(b"\n").unwrap_or(line));
        (first..).zip(bare)
    }

    /// Something that is said of a line, or for 0 of the whole.
    pub fn at(&self, line: usize, what: &str) -> String {
        let name = &self.name;
        match line {
            0 => format!("{name}: {what}"),
            _ => format!("{name}:{line}: {what}"),
        }
    }

    /// What is said of a refused table.
    pub fn refused(&self, refusal: Refusal) -> String {
        self.at(refusal.line.into(), &cause::of_table(refusal, self.table()))
    }
}
