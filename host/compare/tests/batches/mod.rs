//! Stored inputs of `typeask` and what it prints for them: a line `BATCH`, then cases that a line `---`
//! ends each.

use crate::said::say;
use std::path::{Path, PathBuf};
use std::{env, fs};

/// The folder of the base's vectors, if it is at hand: `TYPEASK_VECTORS`, or `../shared/vectors`.
pub fn vectors() -> Option<PathBuf> {
    folder("TYPEASK_VECTORS", "../shared/vectors")
}

/// The folder of document 02's vectors, if it is at hand: `TYPEASK_VECTORS_02`, or `../shared/vectors02`. Each pair of
/// files has what is due with the points up to its number in force.
pub fn vectors_02() -> Option<PathBuf> {
    folder("TYPEASK_VECTORS_02", "../shared/vectors02")
}

/// The folder that a variable names, or else this one, both seen from the root of the repository.
fn folder(variable: &str, usual: &str) -> Option<PathBuf> {
    let root = Path::new(env!("CARGO_MANIFEST_DIR")).join("../..");
    let folder = root.join(env::var(variable).unwrap_or(usual.to_owned()));
    if !folder.is_dir() {
        say(&format!("{} is not at hand", folder.display()));
        return None;
    }
    Some(folder)
}

/// The folder of the stored sample.
pub fn sample() -> PathBuf {
    Path::new(env!("CARGO_MANIFEST_DIR")).join("testdata")
}

/// Every input of a pair of files with what is printed for it.
pub fn cases(folder: &Path, name: &str) -> Vec<(Vec<u8>, String)> {
    let read = |extension| {
        let path = folder.join(name).with_extension(extension);
        fs::read(&path).unwrap_or_else(|e| panic!("{}: {e}", path.display()))
    };
    let inputs = read("in");
    let inputs = split(inputs.strip_prefix(b"BATCH\n").expect("a line BATCH"));
    let outputs = split(&read("out"));
    assert_eq!(inputs.len(), outputs.len(), "cases of {name}");
    let text = |bytes| String::from_utf8(bytes).expect("what is printed is text");
    inputs
        .into_iter()
        .zip(outputs.into_iter().map(text))
        .collect()
}

/// The cases of a file, each ended by the bytes `---` and a newline.
fn split(mut rest: &[u8]) -> Vec<Vec<u8>> {
    const END: &[u8] = b"---\n";
    let mut cases = Vec::new();
    while let Some(at) = rest.windows(END.len()).position(|w| w == END) {
        cases.push(rest[..at].to_vec());
        rest = &rest[at + END.len()..];
    }
    assert!(rest.is_empty(), "a case without an end");
    cases
}
