//! Random tables load, are read as they are written, are refused where their packages are put out of order, and give
//! answers of every form.

#[path = "../../tests/said/mod.rs"]
mod said;

use compare::damage::disorder;
use compare::prng::Prng;
use compare::random::{self, Shape};
use compare::table::Table;
use compare::tables::cases;
use compare::{engine, refusals};
use said::say;
use std::collections::BTreeMap;

fn any_shape(prng: &mut Prng) -> Shape {
    [Shape::small, Shape::middle, Shape::largest][prng.below(3)]()
}

#[test]
fn random_tables_load() {
    for seed in 0..600 {
        let mut prng = Prng::new(seed);
        let shape = any_shape(&mut prng);
        let table = random::table(&mut prng, &shape);
        let text = table.to_string();
        assert_eq!(Table::parse(&text), Some(table.clone()), "seed {seed}");
        assert_eq!(refusals::table(text.as_bytes()), Ok(table), "seed {seed}");
    }
}

/// Random tables of some packages, with these put out of order.
#[test]
fn disordered_tables_are_refused() {
    let mut count = 0;
    for seed in 0..600 {
        let mut prng = Prng::new(seed);
        let shape = Shape {
            packages: 20,
            ..Shape::small()
        };
        let table = random::table(&mut prng, &shape);
        if table.packages.is_empty() {
            continue;
        }
        let mut text = table.to_string().into_bytes();
        disorder(&mut prng, &mut text);
        let refused = refusals::table(&text).expect_err("out of order");
        assert_eq!(refused.number, 14, "seed {seed}: {refused:?}");
        count += 1;
    }
    assert!(count > 400, "{count} of 600 tables");
}

#[test]
fn hard_tables_load() {
    for case in cases() {
        let refused = refusals::table(case.table.as_bytes()).err();
        assert_eq!(refused, None, "{}", case.name);
    }
}

/// Every answer's first word after the letter of its question, and w for N.
const FORMS: [&str; 12] = [
    "C no",
    "C yes",
    "I no",
    "I yes",
    "M set",
    "N missing 0",
    "N missing 1",
    "N satisfied",
    "S ambiguous",
    "S badreceiver",
    "S entry",
    "S notfound",
];

fn form(question: &str, answer: &str) -> String {
    let fields: Vec<&str> = answer.trim_end().split('\t').collect();
    let letter = &question[..1];
    match fields[..] {
        ["missing", _, w] => format!("{letter} missing {w}"),
        _ => format!("{letter} {}", fields[0].split('\n').next().unwrap_or("")),
    }
}

#[test]
fn random_questions_have_answers_of_every_form() {
    let Some(mut goscript) = engine::goscript() else {
        say(engine::NOT_AT_HAND);
        return;
    };
    let mut forms: BTreeMap<String, usize> = BTreeMap::new();
    for seed in 0..300 {
        let mut prng = Prng::new(seed);
        let shape = any_shape(&mut prng);
        let table = random::table(&mut prng, &shape);
        goscript.load(&table.to_string()).expect("it can be read");
        for question in random::questions(&mut prng, &table, 100) {
            let answer = goscript.ask(&question).expect("it can be read");
            *forms.entry(form(&question, &answer)).or_default() += 1;
        }
    }
    say(&format!("goscript's answers: {forms:?}"));
    assert!(forms.keys().eq(FORMS.iter()), "not the forms expected");
}
