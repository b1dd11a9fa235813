//! C programs over the header `include/yifgrun.h`, compiled and linked with the archive where there is a C compiler, and
//! what the archive asks of who links it.

// Tests are built by the Rust of the day; `rust-version` is for those who link the library.
#![allow(clippy::incompatible_msrv)]

mod blocks;
mod said;

use blocks::only;
use said::say;
use std::fs;
use std::path::Path;
use std::process::Command;

const DUE: &str = "\
entry\t0\t1\t0\t0
rest kept, work zero
ambiguous\t0\t0
and\t1\t0
rest kept, work zero
set\t1
sel\t0\t1\t0\t0
rest kept, work zero
no
rest kept, work zero
refusal 1 line 0, kept, work right
refusal 7 line 2, kept, work right
refusal 14 line 3, kept, work right
refusal 11 line 0, kept, work right
refusal 13 line 0, kept, work right
ambiguous\t0\t0
and\t1\t0
refused\t11\t0
no
rest kept, work zero
refused\t12\t0
refused\t11\t0
yes
rest kept, work zero
rest kept, work zero
refusal 1 line 0, kept, work right
refusal 7 line 2, kept, work right
refusal 14 line 3, kept, work right
refusal 13 line 0, kept, work right
typetable\t1
T\tbasic\t26
T\tslice\t0
T\tpointer\t1
rest kept, work zero
refusal 1 line 0, kept, work right
refusal 7 line 2, kept, work right
refusal 13 line 0, kept, work right
";

/// What a C program prints that is compiled with the header and linked with the archive; nothing where there is no compiler.
fn printed(source: &Path, name: &str) -> Option<String> {
    let root = Path::new(env!("CARGO_MANIFEST_DIR"));
    let program = Path::new(env!("CARGO_TARGET_TMPDIR")).join(name);
    let compiled = Command::new("cc")
        .args(["-std=c99", "-Wall", "-Wextra", "-Werror", "-pedantic", "-I"])
        .arg(root.join("include"))
        .arg(source)
        .arg(env!("YIFGRUN_LINKED"))
        .arg("-o")
        .arg(&program)
        .output();
    let Ok(compiled) = compiled else {
        say(&format!("there is no cc: {name} is not run"));
        return None;
    };
    let said = String::from_utf8_lossy(&compiled.stderr);
    assert!(compiled.status.success(), "{said}");
    let ran = Command::new(&program).output().expect("it runs");
    assert!(ran.status.success(), "{ran:?}");
    Some(String::from_utf8(ran.stdout).expect("text"))
}

#[test]
fn a_c_program_asks() {
    let source = Path::new(env!("CARGO_MANIFEST_DIR")).join("tests/c/ask.c");
    if let Some(printed) = printed(&source, "ask") {
        let due = format!("version {}\n{DUE}", env!("CARGO_PKG_VERSION"));
        assert_eq!(printed, due);
    }
}

#[test]
fn the_program_of_the_documents_asks() {
    let source = Path::new(env!("CARGO_TARGET_TMPDIR")).join("entry.c");
    fs::write(&source, only("docs/ENTRY.md", "c")).expect("a file");
    if let Some(printed) = printed(&source, "entry") {
        assert_eq!(printed.replace('\t', " "), only("docs/ENTRY.md", "text"));
    }
}

/// A host without a C library has these two to give, and no others.
#[test]
fn the_archive_asks_for_two_names() {
    let listed = Command::new("nm")
        .args(["-u", env!("YIFGRUN_LINKED")])
        .output();
    let Ok(listed) = listed else {
        say("there is no nm: the names that the archive asks for are not read");
        return;
    };
    assert!(listed.status.success(), "{listed:?}");
    let text = String::from_utf8(listed.stdout).expect("text");
    let names: Vec<&str> = text
        .lines()
        .filter_map(|line| line.trim_start().strip_prefix("U "))
        .collect();
    assert_eq!(names, ["memcpy", "memset"]);
}
