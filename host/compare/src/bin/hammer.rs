//! Makes COUNT calls of the library on random and damaged tables from SEED, each with a call for many questions and
//! one that tidies the table behind it, and checks each; the calls from number FIRST on, if it is given. A call that does not end within a minute is told as
//! one that fails.

use compare::engine;
use compare::hammer::{Call, Hammer};
use std::process::{self, ExitCode};
use std::sync::atomic::{AtomicU64, Ordering};
use std::time::{Duration, Instant};
use std::{env, panic, thread};

/// The number of the call that is made.
static NUMBER: AtomicU64 = AtomicU64::new(0);

const LONGEST: Duration = Duration::from_secs(60);

fn main() -> ExitCode {
    let numbers: Vec<Option<u64>> = env::args().skip(1).map(|n| n.parse().ok()).collect();
    let (seed, count, first) = match numbers[..] {
        [Some(seed), Some(count)] => (seed, count, 0),
        [Some(seed), Some(count), Some(first)] => (seed, count, first),
        _ => {
            eprintln!("usage: hammer SEED COUNT [FIRST]");
            return ExitCode::from(2);
        }
    };
    if engine::goscript().is_none() {
        println!("{}", engine::NOT_AT_HAND);
    }
    tell_failures(seed);
    thread::spawn(move || watch(seed));
    let start = Instant::now();
    let mut hammer = Hammer::new();
    for number in first..first + count {
        NUMBER.store(number, Ordering::Relaxed);
        hammer.strike(&Call::new(seed, number));
        if (number + 1) % 1_000_000 == 0 {
            println!("{} calls, {} s", number + 1, start.elapsed().as_secs());
        }
    }
    print(seed, count, &hammer, start.elapsed());
    ExitCode::SUCCESS
}

fn print(seed: u64, count: u64, hammer: &Hammer, time: Duration) {
    let counts = &hammer.counts;
    println!(
        "seed {seed}: {count} calls in {} s, all as promised",
        time.as_secs()
    );
    println!("{} answered", counts.answered);
    for (number, count) in counts.refused.iter().enumerate().skip(1) {
        println!("{count} refused {number}");
    }
    println!(
        "answers and refusals 13 held against goscript, or for V the table: {}",
        counts.agreed
    );
    let many = &counts.many;
    println!(
        "in one call, each as alone: {} questions of {} calls, {} of them refused; {} calls refused",
        many.questions, many.answered, many.refused_questions, many.refused
    );
    let tidied = &counts.tidied;
    println!(
        "tidied: {} tables, {} of them with fewer types behind; {} calls refused",
        tidied.tables, tidied.smaller, tidied.refused
    );
}

/// Lets a failure say which call it is, and show it.
fn tell_failures(seed: u64) {
    let before = panic::take_hook();
    panic::set_hook(Box::new(move |failure| {
        let number = NUMBER.load(Ordering::Relaxed);
        show(seed, number);
        before(failure);
    }));
}

fn show(seed: u64, number: u64) {
    let call = Call::new(seed, number);
    println!("{}", String::from_utf8_lossy(&call.table));
    println!("question: {}", call.question.escape_ascii());
    println!("with others: {}", call.questions.escape_ascii());
    println!(
        "answer buffer {} bytes, work area {} words",
        call.room, call.words
    );
    println!("call {number} of seed {seed}: hammer {seed} 1 {number}");
}

/// Ends the run if a call does not end.
fn watch(seed: u64) {
    let mut last = (u64::MAX, Instant::now());
    loop {
        thread::sleep(Duration::from_secs(1));
        let number = NUMBER.load(Ordering::Relaxed);
        if number != last.0 {
            last = (number, Instant::now());
        } else if last.1.elapsed() > LONGEST {
            show(seed, number);
            eprintln!("the call does not end");
            process::exit(1);
        }
    }
}
