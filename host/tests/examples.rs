//! The programs in `examples`, run as a reader runs them: each prints what stands beside it in a file `.out`.

// Tests are built by the Rust of the day; `rust-version` is for those who link the library.
#![allow(clippy::incompatible_msrv)]

use std::path::{Path, PathBuf};
use std::process::Command;
use std::{env, fs};

const PACKAGE: &str = env!("CARGO_MANIFEST_DIR");

/// The names of the examples.
fn names() -> Vec<String> {
    let files = fs::read_dir(Path::new(PACKAGE).join("examples")).expect("a folder of examples");
    let paths = files.map(|file| file.expect("a file").path());
    let sources = paths.filter(|path| path.extension().is_some_and(|e| e == "rs"));
    let name = |path: PathBuf| path.file_stem().expect("a name").to_string_lossy().into();
    sources.map(name).collect()
}

/// What `cargo run --example NAME` prints, in a folder of its own, so that nothing built before is run.
fn printed(name: &str) -> String {
    let run = Command::new(env!("CARGO"))
        .args(["run", "--offline", "--quiet", "--example", name])
        .current_dir(PACKAGE)
        .env("YIFGRUN_ARCHIVE", env!("YIFGRUN_LINKED"))
        .env(
            "CARGO_TARGET_DIR",
            concat!(env!("CARGO_TARGET_TMPDIR"), "/examples"),
        )
        .output();
    let output = run.expect("cargo runs");
    assert!(output.status.success(), "{name}: {output:?}");
    String::from_utf8(output.stdout).expect("text")
}

#[test]
fn each_example_prints_what_is_stored() {
    let names = names();
    assert!(names.len() >= 3, "{names:?}");
    for name in names {
        let stored = format!("{PACKAGE}/examples/{name}.out");
        let stored = fs::read_to_string(&stored).unwrap_or_else(|e| panic!("{stored}: {e}"));
        assert_eq!(printed(&name), stored, "{name}");
    }
}
