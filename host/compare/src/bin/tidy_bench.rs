//! Times the call that tidies a table: tables of Go packages, as gotable writes them and with types repeated, random tables,
//! and tables that are hard on it. The folder of gotable's tables is the argument, or the stored sample; of these the ones
//! with about 50, 300 and 512 types are taken. `load` is a call with V.

use compare::repeated::Repeated;
use compare::tables::{cases, untidy};
use compare::tidied::Lines;
use compare::timing::fastest;
use std::collections::BTreeMap;
use std::env;
use std::ffi::OsString;
use std::fs;
use std::hint::black_box;
use std::path::Path;
use yifgrun::Answers;

const SAMPLE: &str = concat!(env!("CARGO_MANIFEST_DIR"), "/../testdata/gotable");

/// The types that a table of a Go package has about as many of.
const SIZES: [usize; 3] = [50, 300, 512];

fn main() {
    let folder = env::args_os().nth(1).unwrap_or(OsString::from(SAMPLE));
    println!("Microseconds, the fastest run of each; buffers are not cleared between calls.\n");
    println!("| table | types | bytes | types behind | bytes behind | load | tidy |");
    println!("|---|---:|---:|---:|---:|---:|---:|");
    for (name, text) in go_tables(Path::new(&folder)) {
        print_row(&name, &text);
        print_row(
            &format!("{name}, types repeated"),
            &Repeated::of(&text).text,
        );
    }
    let random = cases()
        .into_iter()
        .filter(|case| case.name.starts_with("random table"));
    random.for_each(|case| print_row(&case.name, &case.table));
    for (name, table, _) in untidy() {
        print_row(&name, &table.to_string());
    }
}

/// The tables of a folder whose number of types is nearest to each of the sizes, by name.
fn go_tables(folder: &Path) -> BTreeMap<String, String> {
    let entries = fs::read_dir(folder).expect("a folder of tables");
    let paths = entries.map(|entry| entry.expect("a file").path());
    let inputs = paths.filter(|path| path.extension() == Some("in".as_ref()));
    let table = |path: &Path| {
        let input = fs::read_to_string(path).expect("text");
        let (table, _) = input.split_once("\nQ\n").expect("a line Q");
        let name = path.file_stem().expect("a name").to_string_lossy();
        (name.into_owned(), format!("{table}\n"))
    };
    let tables: BTreeMap<String, String> = inputs.map(|path| table(&path)).collect();
    let nearest = |size: usize| {
        let distance = |text: &str| Lines::of(text).types().abs_diff(size);
        let found = tables.iter().min_by_key(|(_, text)| distance(text));
        found.map(|(name, text)| (name.clone(), text.clone()))
    };
    SIZES.into_iter().filter_map(nearest).collect()
}

fn print_row(name: &str, table: &str) {
    let mut answers = Answers::new();
    let load = fastest(|| {
        black_box(answers.ask(black_box(table.as_bytes()), b"V").is_ok());
    });
    let tidy = fastest(|| {
        black_box(answers.tidy(black_box(table.as_bytes())).is_ok());
    });
    let tidied = answers.tidy(table.as_bytes()).expect("it loads");
    let tidied = String::from_utf8_lossy(tidied);
    let sizes =
        [table, &tidied].map(|text| format!("{} | {}", Lines::of(text).types(), text.len()));
    let micros = [load, tidy].map(|time| format!("{:.1}", time.as_secs_f64() * 1e6));
    println!(
        "| {name} | {} | {} |",
        sizes.join(" | "),
        micros.join(" | ")
    );
}
