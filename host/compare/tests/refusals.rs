//! What a table or a question earns by `refusals`, against the vectors where they are at hand, and the samples in
//! `testdata` and `../testdata`.

mod batches;
#[path = "../../tests/due/mod.rs"]
mod due;
#[path = "../../tests/said/mod.rs"]
mod said;

use compare::refusals::{self, Refused};
use compare::{bounds, typeask};
use due::{ordered, Due};
use said::say;
use std::path::Path;

/// A refusal as `typeask` prints it.
fn printed(refused: Refused) -> String {
    format!("refused\t{}\t{}", refused.number, refused.line)
}

#[test]
fn refusals_agree_with_the_vectors() {
    if let Some(folder) = batches::vectors() {
        for name in ["small", "mixed", "damaged"] {
            all_agree(&folder, name, due::of_point_2);
        }
    }
    if let Some(folder) = batches::vectors_02() {
        for name in ["1", "2"] {
            all_agree(&folder, name, due::of_point_2);
        }
        all_agree(&folder, "4", due::of_point_4);
        all_agree(&folder, "5", due::of_point_5);
    }
}

#[test]
fn refusals_agree_with_the_stored_samples() {
    all_agree(&batches::sample(), "sample", due::of_point_5);
    let library = batches::sample().join("../../testdata");
    all_agree(&library, "sample", due::of_point_5);
}

/// Every case of a pair of files with the output that is due now, where that can be told, and those that are refused by 14
/// also put in order. Refusals alone are compared, so that answers which points 1 and 2 change are no matter.
fn all_agree(folder: &Path, name: &str, due: Due) {
    let cases = batches::cases(folder, name);
    let (mut told, mut disordered, mut in_order) = (0, 0, 0);
    for (n, (input, output)) in cases.iter().enumerate() {
        let (output, case) = (output.as_bytes(), format!("case {n} of {name}"));
        if let Some((input, output)) = ordered::case(input, output) {
            agrees(&input, &output, &format!("{case}, in order"));
            in_order += 1;
        }
        if let Some(output) = due(input, output) {
            agrees(input, &output, &case);
            told += 1;
            disordered += usize::from(output.starts_with(b"refused\t14\t"));
        }
    }
    let count = cases.len();
    say(&format!(
        "{name}: {told} of {count} cases, {disordered} refused by 14; {in_order} put in order"
    ));
}

fn agrees(input: &[u8], output: &[u8], case: &str) {
    let output = str::from_utf8(output).expect("text");
    if input.len() > bounds::TEXT {
        assert_eq!(output, "refused\t2\t0\n", "{case}");
        return;
    }
    let (text, questions) = typeask::parted(input);
    let table = match refusals::table(text) {
        Ok(table) => table,
        Err(refused) => {
            assert_eq!(output.trim_end(), printed(refused), "{case}");
            return;
        }
    };
    let answers = typeask::answers(output);
    assert_eq!(answers.len(), questions.len(), "{case}");
    for (question, answer) in questions.into_iter().zip(&answers) {
        let answer = answer.trim_end();
        match refusals::question(&table, question) {
            Err(refused) => assert_eq!(answer, printed(refused), "{case}"),
            Ok(()) => {
                let answered = !answer.starts_with("refused") || answer == "refused\t13\t0";
                assert!(answered, "{case}: {answer}");
            }
        }
    }
}
