//! Stored inputs of the program `typeask` with what it prints, and stored calls: the sample in `testdata`, which
//! tools/host_sample.py makes, and the vectors where they are at hand.

use crate::due::{self, ordered, Due};
use crate::said::say;
use std::path::{Path, PathBuf};
use std::{env, fs};

/// An input of `typeask`, what it prints, and where the two stand.
pub struct Case {
    pub input: Vec<u8>,
    pub output: Vec<u8>,
    pub name: String,
}

impl Case {
    /// The case with what is due now, where that can be told.
    fn now(self, due: Due) -> Option<Case> {
        let output = due(&self.input, &self.output)?;
        Some(Case { output, ..self })
    }

    /// The case put in order, if its packages are not.
    fn ordered(&self) -> Option<Case> {
        let (input, output) = ordered::case(&self.input, &self.output)?;
        let name = format!("{}, in order", self.name);
        Some(Case {
            input,
            output,
            name,
        })
    }

    /// Whether something else than refusals is printed.
    fn is_answered(&self) -> bool {
        let mut lines = self.output.split_inclusive(|&b| b == b'\n');
        lines.any(|line| !line.starts_with(b"refused\t"))
    }
}

/// The folder of the base's vectors, if it is at hand: `TYPEASK_VECTORS`, or `../shared/vectors`.
fn vectors() -> Option<PathBuf> {
    folder("TYPEASK_VECTORS", "../shared/vectors")
}

/// The folder of document 02's vectors, if it is at hand: `TYPEASK_VECTORS_02`, or `../shared/vectors02`. Each pair of
/// files has what is due with the points up to its number in force.
fn vectors_02() -> Option<PathBuf> {
    folder("TYPEASK_VECTORS_02", "../shared/vectors02")
}

/// The folder that a variable names, or else this one, both seen from the root of the repository.
fn folder(variable: &str, usual: &str) -> Option<PathBuf> {
    let root = Path::new(env!("CARGO_MANIFEST_DIR")).join("..");
    let folder = root.join(env::var(variable).unwrap_or(usual.to_owned()));
    let at_hand = folder.is_dir();
    let what = if at_hand { "run" } else { "not at hand" };
    say(&format!("the vectors of {} are {what}", folder.display()));
    at_hand.then_some(folder)
}

fn sample() -> PathBuf {
    Path::new(env!("CARGO_MANIFEST_DIR")).join("testdata")
}

/// The base's pairs of files and document 02's, each with what tells the print that is due now from the stored one.
const BASE: [(&str, Due); 3] = [
    ("small", due::of_base),
    ("mixed", due::of_base),
    ("damaged", due::of_base),
];
const POINTS: [(&str, Due); 4] = [
    ("1", due::of_point_1),
    ("2", due::of_point_2),
    ("4", due::of_point_4),
    ("5", due::of_point_5),
];

/// The stored cases, and says which they are: the sample, and the vectors at hand.
pub fn cases() -> Vec<Case> {
    let mut cases = cases_of(&sample(), "sample");
    for (folder, pairs) in [(vectors(), &BASE[..]), (vectors_02(), &POINTS[..])] {
        let Some(folder) = folder else { continue };
        for &(name, due) in pairs {
            cases.extend(due_of(&folder, name, due));
        }
    }
    cases
}

/// The cases of a pair of files with what is due now, where that can be told, and those that are refused by 14 also put in
/// order; says how many these are.
fn due_of(folder: &Path, name: &str, due: Due) -> Vec<Case> {
    let stored = cases_of(folder, name);
    let count = stored.len();
    let in_order = stored.iter().filter_map(Case::ordered);
    let in_order: Vec<Case> = in_order.filter_map(|case| case.now(due)).collect();
    let cases = stored.into_iter().filter_map(|case| case.now(due));
    let cases: Vec<Case> = cases.collect();
    let refused = |case: &&Case| case.output.starts_with(b"refused\t14\t");
    let answered = |case: &&Case| case.is_answered();
    say(&format!(
        "{name}: {} of {count} cases, {} refused by 14; {} put in order, {} of them answered",
        cases.len(),
        cases.iter().filter(refused).count(),
        in_order.len(),
        in_order.iter().filter(answered).count(),
    ));
    cases.into_iter().chain(in_order).collect()
}

/// The stored calls of the sample, a line each.
pub fn calls() -> String {
    text(&sample().join("entry.txt"))
}

/// The stored calls of the base, a line each, if they are at hand.
pub fn base_calls() -> Option<String> {
    Some(text(&vectors()?.join("entry.txt")))
}

/// The stored calls that tidy a table, a line each: those of the sample, and of document 02 where they are at hand.
pub fn tidy_calls() -> String {
    let sample = text(&sample().join("tidy.txt"));
    let vectors = vectors_02().map(|folder| text(&folder.join("tools/tidy-6.txt")));
    sample + &vectors.unwrap_or_default()
}

fn text(path: &Path) -> String {
    String::from_utf8(read(path)).expect("the calls are text")
}

/// The cases of a pair of files.
fn cases_of(folder: &Path, name: &str) -> Vec<Case> {
    let inputs = read(&folder.join(name).with_extension("in"));
    let inputs = split(inputs.strip_prefix(b"BATCH\n").expect("a line BATCH"));
    let outputs = split(&read(&folder.join(name).with_extension("out")));
    assert_eq!(inputs.len(), outputs.len(), "cases of {name}");
    let case = |(n, (input, output))| Case {
        input,
        output,
        name: format!("case {n} of {name}"),
    };
    let pairs = inputs.into_iter().zip(outputs);
    pairs.enumerate().map(case).collect()
}

fn read(path: &Path) -> Vec<u8> {
    fs::read(path).unwrap_or_else(|e| panic!("{}: {e}", path.display()))
}

/// The parts of a file, each ended by the bytes `---` and a newline.
fn split(mut rest: &[u8]) -> Vec<Vec<u8>> {
    const END: &[u8] = b"---\n";
    let mut parts = Vec::new();
    while let Some(at) = rest.windows(END.len()).position(|w| w == END) {
        parts.push(rest[..at].to_vec());
        rest = &rest[at + END.len()..];
    }
    assert!(rest.is_empty(), "a case without an end");
    parts
}
