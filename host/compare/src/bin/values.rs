//! What values cost beside texts: each case's questions, asked one by one and all in one call, by the archive's calls on
//! texts and by `Library` on values. The fastest of many runs counts.

use compare::tables::{cases, Case};
use std::hint::black_box;
use std::time::{Duration, Instant};
use yifgrun::{Answers, Library, Question};

const RUNS: usize = 200;

fn main() {
    println!("| case | questions | one, texts | one, values | all, texts | all, values |");
    println!("|---|---:|---:|---:|---:|---:|");
    for case in cases() {
        println!("{}", row(&case));
    }
}

/// A case's times in nanoseconds; `one` is a question on the average.
fn row(case: &Case) -> String {
    let questions: Vec<Question> = case.questions.iter().map(|q| parsed(q)).collect();
    let count = questions.len() as u32;
    let mut answers = Answers::new();
    let mut library = Library::new(case.table.as_bytes()).expect("it loads");
    let table = case.table.as_bytes();
    let one_text = fastest(|| {
        for question in &case.questions {
            black_box(answers.ask(table, question.as_bytes()).is_ok());
        }
    });
    let one_value = fastest(|| {
        for question in &questions {
            black_box(library.ask(question).is_ok());
        }
    });
    let lines = case.questions.join("\n");
    let all_text = fastest(|| {
        black_box(answers.ask_all(table, lines.as_bytes()).is_ok());
    });
    let all_value = fastest(|| {
        black_box(library.ask_all(&questions));
    });
    let times = [one_text / count, one_value / count, all_text, all_value];
    let times = times.map(|time| time.as_nanos().to_string());
    format!("| {} | {count} | {} |", case.name, times.join(" | "))
}

fn parsed(question: &str) -> Question {
    question.parse().expect("every question has a right form")
}

fn fastest(mut run: impl FnMut()) -> Duration {
    let once = |_| {
        let begin = Instant::now();
        run();
        begin.elapsed()
    };
    (0..RUNS).map(once).min().expect("a run")
}
