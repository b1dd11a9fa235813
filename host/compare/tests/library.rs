//! The library against goscript and against the refusals that are due: short runs of the programs `compare` and
//! `hammer`, and the hard tables.

#[path = "../../tests/said/mod.rs"]
mod said;

use compare::agreement::Agreed;
use compare::hammer::{Call, Hammer};
use compare::prng::Prng;
use compare::random::{self, Shape};
use compare::tables::cases;
use compare::{engine, side_by_side};
use said::say;

/// Every way to agree must have been met: goscript's way of an ambiguous name as the first of two and as the second,
/// and both departures of a method set.
fn all_met(agreed: Agreed, run: &str) {
    say(&format!("{run}: {agreed}"));
    assert!(agreed.all_met(), "{run}: {agreed}");
}

#[test]
fn random_and_damaged_tables() {
    let mut hammer = Hammer::new();
    for seed in [1, 2] {
        for number in 0..30_000 {
            hammer.strike(&Call::new(seed, number));
        }
    }
    let counts = &hammer.counts;
    let due = (1..15).filter(|&n| n != 2);
    let missing: Vec<usize> = due.filter(|&n| counts.refused[n] == 0).collect();
    assert_eq!(missing, [0; 0], "refusals that no call gave");
    assert!(counts.refused[14] > 1_000, "{}", counts.refused[14]);
    say(&format!(
        "60,000 calls, refused by 1 to 14: {:?}",
        &counts.refused[1..]
    ));
    let many = &counts.many;
    say(&format!(
        "in one call: {} questions of {} calls, {} of them refused; {} calls refused",
        many.questions, many.answered, many.refused_questions, many.refused
    ));
    assert!(many.answered > 20_000 && many.questions > 2 * many.answered);
    assert!(many.refused > 20_000 && many.refused_questions > 10_000);
    let tidied = &counts.tidied;
    say(&format!(
        "tidied: {} tables, {} of them with fewer types behind; {} calls refused",
        tidied.tables, tidied.smaller, tidied.refused
    ));
    assert!(tidied.smaller > 5_000 && tidied.refused > 20_000);
    match engine::goscript() {
        Some(_) => all_met(counts.agreed, "60,000 calls"),
        None => say(engine::NOT_AT_HAND),
    }
}

#[test]
fn random_tables_that_load() {
    let (Some(mut goscript), Some(mut library)) = (engine::goscript(), engine::library()) else {
        say(engine::NOT_AT_HAND);
        return;
    };
    let mut agreed = Agreed::default();
    for seed in 0..400 {
        let mut prng = Prng::new(seed);
        let shape = [Shape::tiny, Shape::small, Shape::middle, Shape::largest][prng.below(4)]();
        let table = random::table(&mut prng, &shape);
        let questions = random::questions(&mut prng, &table, 50);
        let engines = (goscript.as_mut(), library.as_mut());
        let result = side_by_side::hold(engines, &table.to_string(), &questions, &mut agreed);
        assert_eq!(result, Ok(()), "seed {seed}");
    }
    all_met(agreed, "400 random tables");
}

#[test]
fn every_question_on_small_tables() {
    let (Some(mut goscript), Some(mut library)) = (engine::goscript(), engine::library()) else {
        say(engine::NOT_AT_HAND);
        return;
    };
    let mut agreed = Agreed::default();
    for seed in 0..600 {
        let table = random::table(&mut Prng::new(seed), &Shape::tiny());
        let questions = random::all_questions(&table);
        let engines = (goscript.as_mut(), library.as_mut());
        let result = side_by_side::hold(engines, &table.to_string(), &questions, &mut agreed);
        assert_eq!(result, Ok(()), "seed {seed}");
    }
    all_met(agreed, "every question on 600 small tables");
}

/// Every answer of goscript to the hard tables, but those that it takes seconds for, or does not come to.
#[test]
fn hard_tables() {
    engine::on_large_stack(hold_hard_tables);
}

fn hold_hard_tables() {
    let (Some(mut goscript), Some(mut library)) = (engine::goscript(), engine::library()) else {
        say(engine::NOT_AT_HAND);
        return;
    };
    let mut agreed = Agreed::default();
    for case in cases() {
        if !case.for_goscript || case.name.starts_with("two towers of 24") {
            continue;
        }
        let engines = (goscript.as_mut(), library.as_mut());
        let result = side_by_side::hold(engines, &case.table, &case.questions, &mut agreed);
        assert_eq!(result, Ok(()), "{}", case.name);
    }
    say(&format!("hard tables: {agreed}"));
}

/// Of those that goscript does not come to, towers and nested pairs, what is due is known: nothing tells the types
/// apart, whose only values are ints, and no field has the name that is asked for.
#[test]
fn hard_tables_without_goscript() {
    let mut library = engine::library().expect("this test is built with it");
    let hard = cases().into_iter().filter(|case| !case.for_goscript);
    for case in hard {
        library.load(&case.table).expect("it loads");
        let mut all = String::new();
        for question in &case.questions {
            let due = if question.starts_with('S') {
                "notfound\n"
            } else {
                "yes\n"
            };
            let answer = library.ask(question);
            assert_eq!(answer.as_deref(), Some(due), "{}", case.name);
            all += due;
        }
        let answers = library.ask_all(&case.table, &case.questions.join("\n"));
        assert_eq!(answers, Some(all), "{}", case.name);
    }
}
