//! What gotable writes, and the library's answers held against it.

use crate::names;
use std::fs;
use std::path::Path;

/// What gotable writes for one table: the table with its questions, go/types' answers, and the names for people.
pub struct Pair {
    pub name: String,
    pub input: String,
    pub output: String,
    pub names: String,
}

/// The pairs of a folder, by name.
pub fn pairs(folder: &Path) -> Vec<Pair> {
    let mut all = Vec::new();
    for entry in fs::read_dir(folder).expect("the folder") {
        let path = entry.expect("a file").path();
        if path.extension().is_some_and(|end| end == "in") {
            all.push(pair(&path));
        }
    }
    all.sort_by(|a, b| a.name.cmp(&b.name));
    all
}

fn pair(input: &Path) -> Pair {
    let text = |path: &Path| fs::read_to_string(path).expect("each file of a table");
    let name = input.file_stem().and_then(|name| name.to_str());
    Pair {
        name: name.expect("a name that is text").to_owned(),
        input: text(input),
        output: text(&input.with_extension("out")),
        names: text(&input.with_extension("names")),
    }
}

/// The answers of a text, each with all its lines; a refused question has its refusal's words.
fn each(answers: &[u8]) -> Vec<String> {
    let text = |answer: &[u8]| String::from_utf8(answer.to_vec()).expect("text");
    yifgrun::each_answer(answers)
        .map(|answer| answer.map_or_else(|refusal| refusal.to_string(), text))
        .collect()
}

/// The library's answers, question by question; a table that is refused fails.
fn library(name: &str, table: &str, questions: &str) -> Vec<String> {
    match yifgrun::Answers::new().ask_all(table.as_bytes(), questions.as_bytes()) {
        Ok(answers) => each(answers),
        Err(refusal) => panic!("{name}: {refusal}"),
    }
}

/// How many answers are the same, and of these how many are ambiguous: go/types shows one way, the first or the second
/// of the library's. Sources are the questions that have a place in the source.
#[derive(Debug, Default)]
pub struct Count {
    pub tables: usize,
    pub same: usize,
    pub sources: usize,
    pub first_way: usize,
    pub second_way: usize,
}

/// Holds the library's answers on every pair of a folder against go/types', and its names against the table.
pub fn compare_all(folder: &Path) -> Count {
    let mut count = Count::default();
    for pair in pairs(folder) {
        compare(&pair, &mut count);
        count.sources += names::check(&pair);
    }
    count
}

fn compare(pair: &Pair, count: &mut Count) {
    let name = &pair.name;
    let (table, questions) = pair.input.split_once("\nQ\n").expect("a line Q");
    let ours = library(name, &format!("{table}\n"), questions);
    let theirs = each(pair.output.as_bytes());
    assert_eq!(ours.len(), questions.lines().count(), "{name}");
    assert_eq!(ours.len(), theirs.len(), "{name}");
    for ((question, ours), theirs) in questions.lines().zip(&ours).zip(&theirs) {
        assert!(
            agree(ours, theirs, count),
            "{name}: {question}\nlibrary: {ours}go/types: {theirs}"
        );
    }
    count.tables += 1;
    count.same += ours.len();
}

fn agree(ours: &str, theirs: &str, count: &mut Count) -> bool {
    let Some(way) = theirs.strip_prefix("ambiguous\t") else {
        return ours == theirs;
    };
    let Some((first, second)) = ours.split_once("and\t") else {
        return false;
    };
    let (is_first, is_second) = (first == theirs, second == way);
    count.first_way += usize::from(is_first);
    count.second_way += usize::from(is_second);
    is_first || is_second
}
