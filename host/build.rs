//! Finds the archive of the proved library, `YIFGRUN_ARCHIVE` or `../target/staticlib/libyifgrun.a`, and links
//! it. A copy stands in the build's own folder, so that the archive may have any name. Where there is none, or the
//! build is for another target than the archive's, it says so; what does not link (`cargo check`, `clippy`, `doc`)
//! goes on, and a build fails.

use std::path::{Path, PathBuf};
use std::{env, fs};

/// The architecture and the system that the archive is made for.
const TARGET: [&str; 2] = ["x86_64", "linux"];

fn main() {
    println!("cargo:rerun-if-changed=build.rs");
    println!("cargo:rerun-if-env-changed=YIFGRUN_ARCHIVE");
    let archive = archive();
    println!("cargo:rerun-if-changed={}", archive.display());
    let folder = PathBuf::from(set_by_cargo("OUT_DIR"));
    let copy = folder.join("libyifgrun.a");
    if archive.is_file() {
        let bytes = fs::read(&archive).expect("the archive can be read");
        fs::write(&copy, bytes).expect("OUT_DIR takes a file");
    } else {
        miss(&archive, &copy);
    }
    tell_of_target();
    println!("cargo:rustc-link-search=native={}", folder.display());
    println!("cargo:rustc-link-lib=static=yifgrun");
    // The C program of the tests is linked with the same archive.
    println!("cargo:rustc-env=YIFGRUN_LINKED={}", copy.display());
}

fn set_by_cargo(variable: &str) -> String {
    env::var(variable).unwrap_or_else(|_| panic!("cargo sets {variable}"))
}

fn warn(words: &str) {
    println!("cargo:warning={words}");
}

/// Where the archive is looked for; a relative path counts from the root of the repository.
fn archive() -> PathBuf {
    let root = Path::new(env!("CARGO_MANIFEST_DIR")).join("..");
    let given = env::var("YIFGRUN_ARCHIVE");
    root.join(given.unwrap_or_else(|_| "target/staticlib/libyifgrun.a".to_owned()))
}

/// Says that there is no archive, and leaves no copy of an earlier one to be linked in its place.
fn miss(archive: &Path, copy: &Path) {
    if copy.exists() {
        fs::remove_file(copy).expect("the copy can be removed");
    }
    let path = archive.display();
    warn(&format!("the library's archive is not there: {path}"));
    warn("in the root of the repository `host/archive.sh` makes it;");
    warn("one that stands elsewhere is named by the variable YIFGRUN_ARCHIVE");
}

/// Says that the archive can't be linked into what is built, if that is so.
fn tell_of_target() {
    let [arch, os] = ["ARCH", "OS"].map(|part| set_by_cargo(&format!("CARGO_CFG_TARGET_{part}")));
    if [&*arch, &*os] != TARGET {
        warn("the library's archive is made for x86-64 Linux (x86_64, linux)");
        warn(&format!(
            "and can't be linked for this target ({arch}, {os})"
        ));
    }
}
