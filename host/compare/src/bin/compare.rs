//! Holds the library's answers against goscript's on COUNT random tables from SEED: every question S, M, N, I and C
//! on a table of few types, and a hundred on a larger one; each alone, and all of a table in one call.

use compare::agreement::Agreed;
use compare::prng::Prng;
use compare::random::{self, Shape};
use compare::{engine, side_by_side};
use std::collections::BTreeMap;
use std::env;
use std::process::ExitCode;

fn main() -> ExitCode {
    let numbers: Vec<Option<u64>> = env::args().skip(1).map(|n| n.parse().ok()).collect();
    let [Some(seed), Some(count)] = numbers[..] else {
        eprintln!("usage: compare SEED COUNT");
        return ExitCode::from(2);
    };
    let (Some(mut goscript), Some(mut library)) = (engine::goscript(), engine::library()) else {
        println!("{}", engine::NOT_AT_HAND);
        return ExitCode::SUCCESS;
    };
    let mut letters: BTreeMap<char, u64> = BTreeMap::new();
    let mut agreed = Agreed::default();
    for n in 0..count {
        let mut prng = Prng::new(seed ^ n.wrapping_mul(0xd134_2543_de82_ef95));
        let (text, questions) = asked(&mut prng);
        let engines = (goscript.as_mut(), library.as_mut());
        if let Err(difference) = side_by_side::hold(engines, &text, &questions, &mut agreed) {
            println!("table {n} of seed {seed}\n{difference}");
            return ExitCode::FAILURE;
        }
        for question in &questions {
            let letter = question.chars().next().unwrap_or(' ');
            *letters.entry(letter).or_default() += 1;
        }
    }
    println!("seed {seed}: {count} tables, questions: {letters:?}");
    println!("every answer agrees with goscript's: {agreed}");
    println!("all answers of a table in one call are the same");
    ExitCode::SUCCESS
}

/// A random table, and the questions on it.
fn asked(prng: &mut Prng) -> (String, Vec<String>) {
    let shapes = [
        Shape::tiny,
        Shape::tiny,
        Shape::small,
        Shape::middle,
        Shape::largest,
    ];
    let shape = shapes[prng.below(shapes.len())]();
    let table = random::table(prng, &shape);
    let questions = if table.types.len() <= 10 {
        random::all_questions(&table)
    } else {
        random::questions(prng, &table, 100)
    };
    (table.to_string(), questions)
}
