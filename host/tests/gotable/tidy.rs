//! What gotable writes, tidied.

use crate::answers::pairs;
use crate::repeated::Repeated;
use crate::said::say;
use crate::tidied::{carried, Count, Pair};
use std::path::Path;
use yifgrun::Library;

/// Tidies the tables of a folder as they are, then these with types repeated as far as there is room, which gives the same
/// tables back; and holds the answers to their questions behind against those before, on the last type of those repeated.
pub fn tidy_all(folder: &Path) -> [Count; 2] {
    let [mut written, mut repeated] = [Count::default(), Count::default()];
    for pair in pairs(folder) {
        let (table, questions) = pair.input.split_once("\nQ\n").expect("a line Q");
        let table = format!("{table}\n");
        let questions: Vec<String> = questions.lines().map(str::to_owned).collect();
        let (due, again) = (tidied_text(&table), Repeated::of(&tidied_text(&table)));
        for text in [&due, &again.text] {
            assert!(tidied_text(text) == due, "{}\n{text}", pair.name);
        }
        let numbers = tidy_numbers(&table);
        written += Pair::new(&table, &due, &numbers).hold(&questions);
        let last = |&t: &usize| again.numbers.iter().rposition(|&old| old == t);
        let last: Vec<usize> = numbers.iter().flat_map(last).collect();
        let questions: Vec<String> = questions.iter().map(|q| carried(q, &last)).collect();
        repeated += Pair::new(&again.text, &due, &again.numbers).hold(&questions);
    }
    [written, repeated]
}

fn library(table: &str) -> Library {
    Library::new(table).unwrap_or_else(|refusal| panic!("{refusal}\n{table}"))
}

fn tidied_text(table: &str) -> String {
    let tidied = library(table).tidy().expect("it loads");
    String::from_utf8(tidied.table().to_vec()).expect("text")
}

fn tidy_numbers(table: &str) -> Vec<usize> {
    let numbers = library(table).tidy_numbers().expect("it loads");
    numbers.into_iter().map(usize::from).collect()
}

/// Says how much smaller tables got.
pub fn say_tidied(what: &str, counts: &[Count; 2]) {
    for (count, as_is) in counts.iter().zip(["as they are", "with types repeated"]) {
        let ([types, left], [bytes, rest]) = (count.types, count.bytes);
        say(&format!(
            "gotable, {what}: {} tables {as_is} tidied, {} of them smaller: {types} types to {left}, {bytes} bytes to {rest}; \
             {:?}, {} members have another number",
            count.tables, count.smaller, count.forms, count.moved
        ));
    }
}
