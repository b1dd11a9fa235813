//! goscript's answers against stored ones: the vectors where they are at hand, and the sample in `testdata`.

mod batches;
#[path = "../../tests/due/mod.rs"]
mod due;
#[path = "../../tests/said/mod.rs"]
mod said;

use compare::agreement::{agrees, agrees_with, Agreed};
use compare::departures;
use compare::engine::{self, Engine};
use compare::refusals;
use compare::{bounds, typeask};
use due::{ordered, Due};
use said::say;
use std::path::Path;

/// goscript prints every case of a pair of files of the base to the byte: one way of an ambiguous name, its own.
#[test]
fn the_bases_vectors_are_goscripts() {
    let Some(folder) = batches::vectors() else {
        return;
    };
    for name in ["small", "mixed"] {
        let Some(mut goscript) = engine::goscript() else {
            say(engine::NOT_AT_HAND);
            return;
        };
        let cases = batches::cases(&folder, name);
        for (n, (input, output)) in cases.iter().enumerate() {
            let printed = typeask::print(goscript.as_mut(), str::from_utf8(input).expect("text"));
            assert_eq!(printed.as_ref(), Some(output), "case {n} of {name}");
        }
        say(&format!("{name}: goscript prints {} cases", cases.len()));
    }
}

#[test]
fn the_vectors_of_document_02_agree() {
    if let Some(folder) = batches::vectors_02() {
        agree(&folder, "2", due::of_point_2);
        agree(&folder, "4", due::of_point_4);
        agree(&folder, "5", due::of_point_5);
    }
}

#[test]
fn the_stored_sample_agrees() {
    agree(&batches::sample(), "sample", due::of_point_5);
}

/// An input of `typeask` and what it prints.
type Stored = (Vec<u8>, String);

/// A case that is refused by 14, put in order.
fn in_order((input, output): &Stored) -> Option<Stored> {
    let (input, output) = ordered::case(input, output.as_bytes())?;
    Some((input, String::from_utf8(output).expect("text")))
}

/// Every answer of a pair of files that is due now as it is stored must agree with goscript's, that of cases put in order
/// too. Every way to agree is met.
fn agree(folder: &Path, name: &str, due: Due) {
    let Some(mut goscript) = engine::goscript() else {
        say(engine::NOT_AT_HAND);
        return;
    };
    let mut agreed = Agreed::default();
    let mut cases = batches::cases(folder, name);
    let ordered: Vec<Stored> = cases.iter().filter_map(in_order).collect();
    let stays = |(input, output): &Stored| {
        due(input, output.as_bytes()) == Some(output.clone().into_bytes())
    };
    cases.retain(stays);
    let count = cases.len();
    cases.extend(ordered.into_iter().filter(stays));
    for (n, (input, output)) in cases.iter().enumerate() {
        if let Err(difference) = case(goscript.as_mut(), input, output, &mut agreed) {
            panic!("case {n} of {name}: {difference}");
        }
    }
    let ordered = cases.len() - count;
    say(&format!(
        "{name}, {count} cases and {ordered} put in order: {agreed}"
    ));
    assert!(agreed.all_met(), "{agreed}");
}

/// Counts how the stored answers to an input agree with goscript's, and shows one that does not. What is refused is
/// passed over: goscript refuses nothing.
fn case(
    goscript: &mut dyn Engine,
    input: &[u8],
    output: &str,
    agreed: &mut Agreed,
) -> Result<(), String> {
    let (text, questions) = typeask::parted(input);
    let Ok(table) = refusals::table(text) else {
        return Ok(());
    };
    if input.len() > bounds::TEXT {
        return Ok(());
    }
    goscript.load(&table.to_string()).expect("it loads");
    let stored = typeask::answers(output);
    assert_eq!(stored.len(), questions.len(), "an answer to each question");
    for (question, stored) in questions.into_iter().zip(stored) {
        if refusals::question(&table, question).is_err() {
            continue;
        }
        let question = str::from_utf8(question).expect("the question has a right form");
        let theirs = goscript.ask(question).expect("it can be read");
        let (theirs, departs) = departures::due(goscript, &table, question, theirs);
        let how = match theirs.len() {
            0..=bounds::ANSWER => agrees_with((&theirs, departs), &stored),
            _ => agrees("refused\t13\t0\n", &stored),
        };
        agreed.count(how.ok_or(format!("{question}: {theirs:?}, stored: {stored:?}"))?);
    }
    Ok(())
}
