//! Random and hard tables tidied: against what the answers to I lead to, and the answers on them against those before.

#[path = "../../tests/said/mod.rs"]
mod said;

use compare::prng::Prng;
use compare::random::{self, Shape};
use compare::table::Table;
use compare::tables::{cases, untidy};
use compare::tidied::{Count, Lines};
use compare::tidy::hold_whole;
use said::say;
use std::collections::BTreeSet;
use std::ops::Range;
use yifgrun::Answers;

/// Every answer's first word after the letter of its question.
const FORMS: [&str; 11] = [
    "C no",
    "C yes",
    "I no",
    "I yes",
    "M set",
    "N missing",
    "N satisfied",
    "S ambiguous",
    "S badreceiver",
    "S entry",
    "S notfound",
];

/// Says what was compared; each form of an answer at least so often, and so many members carried to another number.
fn floor(what: &str, count: &Count, least: usize, moved: usize) {
    say(&format!("{what} tidied: {count:?}"));
    let few = |form: &&&str| count.forms.get(**form).is_none_or(|&n| n < least);
    let few: Vec<&&str> = FORMS.iter().filter(few).collect();
    assert!(few.is_empty(), "fewer than {least}: {few:?}");
    assert!(count.moved >= moved, "{} members moved", count.moved);
    let smaller = 100 * count.smaller / count.tables;
    assert!(smaller > 40, "{smaller} of a hundred tables are smaller");
}

/// Holds random tables of a shape with their questions, and gives what was compared.
fn random_tables(
    seeds: Range<u64>,
    shape: fn() -> Shape,
    questions: impl Fn(&mut Prng, &Table) -> Vec<String>,
) -> Count {
    let mut count = Count::default();
    for seed in seeds {
        let mut prng = Prng::new(seed);
        let table = random::table(&mut prng, &shape());
        let questions = questions(&mut prng, &table);
        match hold_whole(&table.to_string(), &questions) {
            Ok(held) => count += held,
            Err(difference) => panic!("seed {seed}: {difference}"),
        }
    }
    count
}

#[test]
fn every_question_on_small_tables() {
    let count = random_tables(0..600, Shape::tiny, |_, table| random::all_questions(table));
    floor("600 tables of up to 10 types", &count, 200, 1_000);
}

#[test]
fn random_tables_of_some_size() {
    let some = |prng: &mut Prng, table: &_| random::questions(prng, table, 400);
    let mut count = random_tables(1_000..1_300, Shape::small, some);
    count += random_tables(2_000..2_060, Shape::middle, some);
    floor("360 tables of up to 120 types", &count, 500, 20_000);
}

#[test]
fn the_largest_random_tables() {
    let some = |prng: &mut Prng, table: &_| random::questions(prng, table, 1_000);
    let mut count = random_tables(3_000..3_003, Shape::large, some);
    count += random_tables(4_000..4_003, Shape::largest, some);
    floor("6 tables of 256 and 512 types", &count, 1, 20_000);
}

/// The hard tables with their own questions. Where interfaces nest too deep to ask I of each two, they are all one: with the
/// methods' func, its tuple and that of no results four types remain.
#[test]
fn hard_tables() {
    let (mut seen, mut count) = (BTreeSet::new(), Count::default());
    for case in cases() {
        if case.name.contains("nested pairs") {
            let mut answers = Answers::new();
            let tidied = answers.tidy(case.table.as_bytes()).expect("it loads");
            let tidied = String::from_utf8(tidied.to_vec()).expect("text");
            assert_eq!(Lines::of(&tidied).types(), 4, "{}", case.name);
        } else if !case.name.ends_with(", V") && seen.insert(case.table.clone()) {
            match hold_whole(&case.table, &case.questions) {
                Ok(held) => count += held,
                Err(difference) => panic!("{}: {difference}", case.name),
            }
        }
    }
    say(&format!("hard tables tidied: {count:?}"));
    assert!(count.smaller >= 8, "{} are smaller", count.smaller);
}

/// The tables that are hard on tidying, of which the number of types that remain is known.
#[test]
fn untidy_tables() {
    for (name, table, left) in untidy() {
        let table = table.to_string();
        let count =
            hold_whole(&table, &[]).unwrap_or_else(|difference| panic!("{name}: {difference}"));
        assert_eq!(count.types[1], left, "{name}");
    }
}
