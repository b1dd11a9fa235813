//! Times every engine on every hard table: taking the table text, taking it and answering one question, and all
//! questions. A pass over the text that looks at each byte is the floor. With a folder as its argument it times
//! nothing and writes the tables there, for other tools to measure.

use compare::engine::{self, Engine};
use compare::tables::{cases, Case};
use compare::timing::{fastest, fastest_in, SPENT};
use std::hint::black_box;
use std::path::Path;
use std::time::Duration;

const HEAD: [&str; 8] = [
    "Nanoseconds, the fastest run of each; buffers are not cleared between calls. `pass` is a look at each byte of the",
    "text, `one` a load and a question on the average, `all` a load and all questions. For yifgrun `one` is a call of",
    "yifgrun_ask and `all` one of yifgrun_ask_all; for goscript they are sums, of the load and of each question.",
    "`first / one` and `first / all` are the times of the case's first engine divided by this one's, `one / pass` is the",
    "time for one divided by that of the pass.",
    "",
    "| case | table bytes | questions | engine | pass | load | one | all | first / one | first / all | one / pass |",
    "|---|---:|---:|---|---:|---:|---:|---:|---:|---:|---:|",
];

fn main() {
    if let Some(folder) = std::env::args_os().nth(1) {
        write_tables(Path::new(&folder)).expect("the tables are written");
        return;
    }
    engine::on_large_stack(time_all);
}

/// Prints a row for each case and engine.
fn time_all() {
    if engine::goscript().is_none() {
        println!("{}", engine::NOT_AT_HAND);
    }
    let mut engines: Vec<_> = [engine::goscript(), engine::library()]
        .into_iter()
        .flatten()
        .collect();
    for line in HEAD {
        println!("{line}");
    }
    for case in cases() {
        let pass = fastest(|| {
            black_box(pass(black_box(case.table.as_bytes())));
        });
        let mut first = None;
        for engine in &mut engines {
            if engine.name() == "goscript" && !case.for_goscript {
                continue;
            }
            let times = times(engine.as_mut(), &case);
            print_row(
                engine.name(),
                &case,
                pass,
                &times,
                first.get_or_insert(times),
            );
        }
    }
}

/// Each table in a file of its own, named by its number, which is printed with the case.
fn write_tables(folder: &Path) -> std::io::Result<()> {
    for (number, case) in cases().iter().enumerate() {
        let name = format!("{number:02}.table");
        std::fs::write(folder.join(&name), &case.table)?;
        println!("{name}: {}", case.name);
    }
    Ok(())
}

/// A load, a load and a question, a load and all questions.
#[derive(Clone, Copy)]
struct Times {
    load: Duration,
    one: Duration,
    all: Duration,
}

/// Whether every byte is a tab, a newline or printable: a look at each byte, one after the other.
fn pass(text: &[u8]) -> bool {
    for &byte in text {
        if !matches!(byte, b'\t' | b'\n' | 32..=126) {
            return false;
        }
    }
    true
}

fn times(engine: &mut dyn Engine, case: &Case) -> Times {
    let load = fastest(|| load(engine, case));
    let count = case.questions.len() as u32;
    let mut ask = Duration::ZERO;
    for question in &case.questions {
        ask += fastest_in(SPENT / count, || {
            black_box(engine.ask(black_box(question)));
        });
    }
    let one = ask / count;
    if engine.keeps_tables() {
        return Times {
            load,
            one: load + one,
            all: load + ask,
        };
    }
    Times {
        load,
        one,
        all: all_in_one(engine, case),
    }
}

/// The time of one call that loads and answers all questions.
fn all_in_one(engine: &mut dyn Engine, case: &Case) -> Duration {
    let questions = case.questions.join("\n");
    fastest(|| {
        black_box(engine.ask_all(black_box(&case.table), black_box(&questions)));
    })
}

fn print_row(name: &str, case: &Case, pass: Duration, times: &Times, first: &Times) {
    println!(
        "| {} | {} | {} | {name} | {} | {} | {} | {} | {:.1} | {:.1} | {:.1} |",
        case.name,
        case.table.len(),
        case.questions.len(),
        pass.as_nanos(),
        times.load.as_nanos(),
        times.one.as_nanos(),
        times.all.as_nanos(),
        ratio(first.one, times.one),
        ratio(first.all, times.all),
        ratio(times.one, pass),
    );
}

fn ratio(a: Duration, b: Duration) -> f64 {
    a.as_secs_f64() / b.as_secs_f64()
}

fn load(engine: &mut dyn Engine, case: &Case) {
    engine
        .load(black_box(&case.table))
        .expect("every table of the cases loads");
}
