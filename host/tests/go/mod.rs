//! Where Go is, for the tests that hold answers against Go's own checker.

use std::env;
use std::process::Command;

/// Go 1.19's command, if it is installed: `GO`, or where Debian's package golang-1.19-go puts it.
pub fn go() -> Option<String> {
    let command = env::var("GO").unwrap_or("/usr/lib/go-1.19/bin/go".to_owned());
    let version = Command::new(&command).arg("version").output().ok()?;
    let version = String::from_utf8_lossy(&version.stdout).into_owned();
    version.contains("go1.19").then_some(command)
}
