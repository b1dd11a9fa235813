//! Finds goscript's files and writes the module that names them, unmodified, by their paths. They stand
//! in the folder `GOSCRIPT_SRC`, or beside the repository; without them the package builds without them.

use std::path::{Path, PathBuf};
use std::{env, fs};

const FILES: [&str; 7] = [
    "importer",
    "lookup",
    "obj",
    "objects",
    "package",
    "selection",
    "typ",
];

const STANDINS: [&str; 4] = ["check", "constant", "scope", "universe"];

fn main() {
    println!("cargo:rerun-if-changed=build.rs");
    println!("cargo:rerun-if-env-changed=GOSCRIPT_SRC");
    println!("cargo:rustc-check-cfg=cfg(goscript)");
    let folder = folder();
    println!("cargo:rerun-if-changed={}", folder.display());
    let Some(paths) = found(&folder) else {
        return;
    };
    let out = PathBuf::from(env::var("OUT_DIR").expect("cargo sets OUT_DIR")).join("goscript.rs");
    fs::write(out, module(&paths)).expect("OUT_DIR takes a file");
    println!("cargo:rustc-cfg=goscript");
}

/// Where goscript's files are looked for; a relative path counts from the root of the repository.
fn folder() -> PathBuf {
    let root = Path::new(env!("CARGO_MANIFEST_DIR")).join("../..");
    let given = env::var("GOSCRIPT_SRC").unwrap_or("../shared/docs/src/types/src".to_owned());
    root.join(given)
}

/// The path of every file, if all are there.
fn found(folder: &Path) -> Option<Vec<PathBuf>> {
    FILES
        .iter()
        .map(|name| folder.join(name).with_extension("rs").canonicalize().ok())
        .collect()
}

/// The text of the module: goscript's files and, beside them, the stand-ins that they name.
fn module(paths: &[PathBuf]) -> String {
    let mut text = String::new();
    for (name, path) in FILES.iter().zip(paths) {
        println!("cargo:rerun-if-changed={}", path.display());
        text += &format!("#[path = {:?}]\npub mod {name};\n", path);
    }
    for name in STANDINS {
        text += &format!("use crate::standin::{name};\n");
    }
    text
}
