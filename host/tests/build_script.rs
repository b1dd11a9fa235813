//! What a build says where the archive is missing, or is made for another target; and that the package is checked and
//! documented without it.

// Tests are built by the Rust of the day; `rust-version` is for those who link the library.
#![allow(clippy::incompatible_msrv)]

use std::path::{Path, PathBuf};
use std::process::{Command, Output};
use std::{env, fs};

const PACKAGE: &str = env!("CARGO_MANIFEST_DIR");

/// A folder of this name in the tests' own, and nothing in it.
fn empty(name: &str) -> PathBuf {
    let folder = Path::new(env!("CARGO_TARGET_TMPDIR")).join(name);
    let _ = fs::remove_dir_all(&folder);
    fs::create_dir_all(&folder).expect("a folder");
    folder
}

fn text(bytes: Vec<u8>) -> String {
    String::from_utf8(bytes).expect("text")
}

/// What the build script warns of, for a target and an archive.
fn warnings(name: &str, target: [&str; 2], archive: &Path) -> String {
    let folder = empty(name);
    let script = folder.join("script");
    let rustc = env::var("RUSTC").unwrap_or("rustc".to_owned());
    let built = Command::new(rustc)
        .args(["--edition", "2021", "-o"])
        .args([&script, &Path::new(PACKAGE).join("build.rs")])
        .env("CARGO_MANIFEST_DIR", PACKAGE)
        .status();
    assert!(built.expect("rustc runs").success());
    let output = Command::new(&script)
        .env("OUT_DIR", &folder)
        .env("YIFGRUN_ARCHIVE", archive)
        .env("CARGO_CFG_TARGET_ARCH", target[0])
        .env("CARGO_CFG_TARGET_OS", target[1])
        .output();
    let output = output.expect("the script runs");
    assert!(output.status.success(), "{output:?}");
    let printed = text(output.stdout);
    let warnings = printed
        .lines()
        .filter_map(|l| l.strip_prefix("cargo:warning="));
    warnings.map(|warning| format!("{warning}\n")).collect()
}

#[test]
fn an_archive_for_this_target_is_linked_without_a_word() {
    let linked = Path::new(env!("YIFGRUN_LINKED"));
    assert_eq!(warnings("script-linked", ["x86_64", "linux"], linked), "");
}

#[test]
fn another_target_is_told() {
    let linked = Path::new(env!("YIFGRUN_LINKED"));
    let due = "the library's archive is made for x86-64 Linux (x86_64, linux)\n\
        and can't be linked for this target (aarch64, macos)\n";
    assert_eq!(warnings("script-target", ["aarch64", "macos"], linked), due);
}

#[test]
fn a_missing_archive_is_told() {
    let due = "the library's archive is not there: /nowhere/libyifgrun.a\n\
        in the root of the repository `host/archive.sh` makes it;\n\
        one that stands elsewhere is named by the variable YIFGRUN_ARCHIVE\n";
    let nowhere = Path::new("/nowhere/libyifgrun.a");
    assert_eq!(
        warnings("script-missing", ["x86_64", "linux"], nowhere),
        due
    );
}

/// Runs cargo on the package, with no archive.
fn cargo(folder: &Path, arguments: &[&str]) -> Output {
    let cargo = Command::new(env!("CARGO"))
        .args(arguments)
        .args(["--offline", "--manifest-path"])
        .arg(Path::new(PACKAGE).join("Cargo.toml"))
        .env("YIFGRUN_ARCHIVE", "/nowhere/libyifgrun.a")
        .env("CARGO_TARGET_DIR", folder)
        .output();
    cargo.expect("cargo runs")
}

#[test]
fn without_the_archive_the_package_is_checked_and_documented_but_not_built() {
    let folder = empty("without-archive");
    for arguments in [&["check"][..], &["doc", "--no-deps"]] {
        let output = cargo(&folder, arguments);
        assert!(output.status.success(), "{arguments:?}: {output:?}");
    }
    let output = cargo(&folder, &["build"]);
    let said = text(output.stderr);
    assert!(!output.status.success(), "{said}");
    assert!(said.contains("`host/archive.sh` makes it"), "{said}");
}
