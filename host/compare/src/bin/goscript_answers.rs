//! Reads what `typeask` reads, a table that loads and questions of the right form, and prints goscript's
//! answers.

use compare::{engine, typeask};
use std::io::{self, Read};
use std::process::ExitCode;

fn main() -> ExitCode {
    let Some(mut goscript) = engine::goscript() else {
        println!("{}", engine::NOT_AT_HAND);
        return ExitCode::SUCCESS;
    };
    let mut input = String::new();
    if let Err(error) = io::stdin().read_to_string(&mut input) {
        eprintln!("standard input: {error}");
        return ExitCode::FAILURE;
    }
    match typeask::print(goscript.as_mut(), &input) {
        Some(printed) => {
            print!("{printed}");
            ExitCode::SUCCESS
        }
        None => {
            eprintln!("a line of the input can't be read");
            ExitCode::FAILURE
        }
    }
}
