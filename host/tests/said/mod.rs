//! What a test says of its run.

use std::io::{self, Write};

/// Says on standard error what was run. The harness hides what is printed, but not what is written.
pub fn say(what: &str) {
    writeln!(io::stderr(), "{what}").expect("standard error takes a line");
}
