//! Inputs of `typeask`, each a random or damaged table with a question, and what it prints for each by the papers' refusals
//! and goscript's answers, method sets without the two departures of document 02: `random_inputs SEED COUNT`.
//! Inputs with the answer `ambiguous` are left out, since goscript knows one of the two ways that are due. Each input
//! and each print stands behind its length, five digits and a newline.

use compare::engine;
use compare::hammer::{Call, Hammer};
use std::io::{self, Write};
use yifgrun::work_words;

/// An input is no longer than this, so that many can be stored.
const LONGEST: usize = 1_000;

fn main() -> io::Result<()> {
    let mut arguments = std::env::args().skip(1).map(|word| word.parse::<u64>());
    let (Some(Ok(seed)), Some(Ok(count))) = (arguments.next(), arguments.next()) else {
        eprintln!("random_inputs SEED COUNT");
        std::process::exit(2);
    };
    if engine::goscript().is_none() {
        eprintln!("{}", engine::NOT_AT_HAND);
        std::process::exit(1);
    }
    let mut hammer = Hammer::new();
    let mut out = io::stdout().lock();
    let mut left = count;
    for number in 0.. {
        if left == 0 {
            break;
        }
        let call = Call {
            words: work_words(),
            ..Call::new(seed, number)
        };
        let Some(input) = input(&call) else { continue };
        let Some(print) = hammer.printed(&call) else {
            continue;
        };
        for part in [&input, print.as_bytes()] {
            writeln!(out, "{:05}", part.len())?;
            out.write_all(part)?;
        }
        left -= 1;
    }
    Ok(())
}

/// The table, a line `Q` and the question, if that is an input with this table and this question alone.
fn input(call: &Call) -> Option<Vec<u8>> {
    let (table, question) = (&call.table, &call.question);
    let whole = table.is_empty() || table.ends_with(b"\n");
    let parted = table.split(|&byte| byte == b'\n').any(|line| line == b"Q");
    let input = [table, &b"Q\n"[..], question, b"\n"].concat();
    (whole && !parted && !question.contains(&b'\n') && input.len() <= LONGEST).then_some(input)
}
