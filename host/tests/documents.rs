//! What the documents show, run: each block ```typeask is an input of the program, and the block ```prints behind it
//! is what the program prints, and what one call gives for all its questions; a block ```tidied in place of ```typeask
//! is the example before it with its table tidied and its questions carried over; each block ```console is typed at a
//! terminal; the README's program is a package of its own.

// Tests are built by the Rust of the day; `rust-version` is for those who link the library.
#![allow(clippy::incompatible_msrv)]

mod blocks;
mod bounds;
mod transcript;
mod typeask;

use blocks::{blocks, only, read, Block};
use std::collections::BTreeSet;
use std::path::Path;
use std::process::Command;
use std::{fs, os};

/// An input of `typeask`, what it prints, and the line of the document where it stands.
struct Example {
    input: String,
    output: String,
    line: usize,
    is_tidied: bool,
}

impl Example {
    fn of(input: &Block, output: &Block) -> Example {
        Example {
            input: input.lines.iter().map(|line| written(line)).collect(),
            output: output.lines.iter().map(|line| tabbed(line)).collect(),
            line: input.first,
            is_tidied: input.kind == "tidied",
        }
    }

    /// What the example becomes when its table is tidied, up to what is printed.
    fn tidied(&self) -> String {
        let (table, questions) = typeask::parted(self.input.as_bytes());
        let library = yifgrun::Library::new(table).expect("it loads");
        let tidied = library.tidy().expect("it loads").table().to_vec();
        let mut tidied = String::from_utf8(tidied).expect("a table is text") + "Q\n";
        let numbers = library.tidy_numbers().expect("it loads");
        for question in questions {
            let question = str::from_utf8(question).expect("a question is text");
            let question: yifgrun::Question = question.parse().expect("it has the form of one");
            tidied += &format!("{}\n", question.carried(&numbers));
        }
        tidied
    }

    /// The letter of each question with the first word of its answer.
    fn forms(&self) -> Vec<String> {
        let (table, questions) = typeask::parted(self.input.as_bytes());
        let form = |question: &&[u8]| {
            let input = [table, b"Q\n", question].concat();
            let printed = typeask::print(&input, yifgrun::ask);
            let word = printed.split(|b| b"\t\n".contains(b)).next();
            [question.get(..1), Some(b" "), word]
                .map(Option::unwrap_or_default)
                .concat()
        };
        let text = |form: Vec<u8>| String::from_utf8(form).expect("text");
        questions.iter().map(form).map(text).collect()
    }
}

/// The examples of a document: every ```typeask or ```tidied has its ```prints directly behind it, and every ```prints one of
/// these before it.
fn examples(text: &str) -> Vec<Example> {
    let mut examples = Vec::new();
    let blocks = blocks(text);
    let mut rest = &blocks[..];
    while let [block, behind @ ..] = rest {
        rest = behind;
        let half = format!("line {}: half an example", block.first);
        assert_ne!(block.kind, "prints", "{half}");
        if ["typeask", "tidied"].contains(&block.kind) {
            let (output, behind) = behind.split_first().expect(&half);
            assert!(output.kind == "prints" && output.follows, "{half}");
            examples.push(Example::of(block, output));
            rest = behind;
        }
    }
    examples
}

/// A line of an example: its blanks are tabs.
fn tabbed(line: &str) -> String {
    line.replace(' ', "\t") + "\n"
}

/// The lines that a line of an input stands for. What is behind two blanks and `//` is a remark; `9 times: A / B`
/// is nine times the lines A and B, with 0, 1, 2, .. for each `#`.
fn written(line: &str) -> String {
    let text = line.split("  //").next().unwrap_or("").trim_end();
    let Some((count, repeated)) = text.split_once(" times: ") else {
        return tabbed(text);
    };
    let count: usize = count.parse().expect("a number of times");
    let lines = |n: usize| repeated.replace('#', &n.to_string());
    (0..count)
        .flat_map(|n| lines(n).split(" / ").map(tabbed).collect::<Vec<_>>())
        .collect()
}

/// What one call gives for all questions of an example, with the refusal of its table as the program prints it.
fn in_one_call(input: &str) -> String {
    let (table, questions) = typeask::texts(input.as_bytes());
    match yifgrun::Answers::new().ask_all(table, questions) {
        Ok(answers) => String::from_utf8(answers.to_vec()).expect("answers are text"),
        Err(refusal) => format!("refused\t{}\t{}\n", refusal.number(), refusal.line),
    }
}

/// Runs every example of a document, which are at least so many, and gives them. An answer that the program has no room for is
/// given by one call, which no example shows.
fn run(document: &str, least: usize) -> Vec<Example> {
    let examples = examples(&read(document));
    for example in &examples {
        let printed = typeask::print(example.input.as_bytes(), yifgrun::ask);
        let printed = String::from_utf8(printed).expect("answers are text");
        let line = example.line;
        assert_eq!(printed, example.output, "{document}, line {line}");
        let all = in_one_call(&example.input);
        let long = printed == "refused\t13\t0\n" && all.len() > bounds::ANSWER;
        assert!(long || all == printed, "{document}, line {line}: {all}");
    }
    let count = examples.len();
    assert!(
        count >= least,
        "{count} examples in {document}, not {least}"
    );
    examples
}

#[test]
fn the_readme_is_right() {
    run("README.md", 1);
}

/// The documents that a reader follows; all their blocks are of a known kind.
const DOCUMENTS: [&str; 7] = [
    "README.md",
    "docs/MANUAL.md",
    "docs/REFUSALS.md",
    "docs/ENTRY.md",
    "docs/CONTRIBUTING.md",
    "host/README.md",
    "host/gotable/README.md",
];

/// Each block ```console is a transcript of the command.
#[test]
fn commands_print_what_the_documents_show() {
    let folder = Path::new(env!("CARGO_MANIFEST_DIR")).join("testdata/command");
    let mut run = 0;
    for document in DOCUMENTS {
        let text = read(document);
        for block in blocks(&text).iter().filter(|b| b.kind == "console") {
            let lines = block.lines.join("\n") + "\n";
            transcript::compare(document, &lines, block.first, &folder);
            run += 1;
        }
    }
    assert!(run >= 3, "{run} blocks console");
}

/// The documents say how an example is made the text that it stands for: by `sed` and `tr`.
#[test]
fn an_example_is_made_a_text() {
    let filter = "sed 's,  *//.*,,' | tr ' ' '\\t'";
    for document in ["README.md", "docs/MANUAL.md"] {
        assert!(read(document).contains(filter), "{document}: {filter}");
    }
    let file = Path::new(env!("CARGO_TARGET_TMPDIR")).join("example");
    fs::write(&file, only("README.md", "typeask")).expect("a file");
    let made = Command::new("sh")
        .args(["-c", filter])
        .stdin(fs::File::open(&file).expect("the file"))
        .output();
    let made = String::from_utf8(made.expect("a shell runs").stdout).expect("text");
    assert_eq!(made, examples(&read("README.md"))[0].input);
}

/// The files `shelf.in` and `untidy.in` that commands name are the manual's first table and the one that is tidied.
#[test]
fn tables_that_are_files_too() {
    let all = examples(&read("docs/MANUAL.md"));
    assert_eq!(all[0].input, read("host/testdata/command/shelf.in"));
    let tidied = all.iter().position(|example| example.is_tidied);
    let untidy = &all[tidied.expect("a table that is tidied") - 1];
    assert_eq!(untidy.input, read("host/testdata/command/untidy.in"));
}

#[test]
fn tidied_examples_are_those_before_them() {
    let all = examples(&read("docs/MANUAL.md"));
    let pairs = all.windows(2).filter(|pair| pair[1].is_tidied);
    for pair in pairs.clone() {
        assert_eq!(pair[0].tidied(), pair[1].input, "line {}", pair[1].line);
        assert_ne!(pair[0].input, pair[1].input, "line {}", pair[1].line);
    }
    assert!(pairs.count() >= 1, "no table is tidied");
}

/// What a package says beside the README's lines. It is a workspace of its own, since the tests' folder lies within another.
const PROGRAM: &str = "\
[workspace]

[package]
name = \"program\"
version = \"0.1.0\"
edition = \"2021\"

";

/// The program of the README in a package of its own, as its lines say: beside the repository, and linked with the archive.
#[test]
fn the_program_of_the_readme_is_linked() {
    let folder = Path::new(env!("CARGO_TARGET_TMPDIR")).join("linked");
    let _ = fs::remove_dir_all(&folder);
    fs::create_dir_all(folder.join("program/src")).expect("a folder");
    let root = Path::new(env!("CARGO_MANIFEST_DIR")).parent();
    os::unix::fs::symlink(root.expect("a folder"), folder.join("yifgrun")).expect("a link");
    let manifest = PROGRAM.to_owned() + &only("README.md", "toml");
    fs::write(folder.join("program/Cargo.toml"), manifest).expect("a file");
    fs::write(
        folder.join("program/src/main.rs"),
        only("README.md", "rust"),
    )
    .expect("a file");
    let ran = Command::new(env!("CARGO"))
        .args(["run", "--offline", "--quiet"])
        .current_dir(folder.join("program"))
        .env("YIFGRUN_ARCHIVE", env!("YIFGRUN_LINKED"))
        .env("CARGO_TARGET_DIR", folder.join("target"))
        .output();
    // rt ci refuses a link anywhere in the checkout.
    fs::remove_file(folder.join("yifgrun")).expect("the link can be removed");
    let ran = ran.expect("cargo runs");
    assert!(ran.status.success(), "{ran:?}");
    let printed = String::from_utf8(ran.stdout).expect("text");
    let said = format!("It prints `{}`", printed.trim_end());
    assert!(read("README.md").contains(&said), "{said}");
}

/// Every letter of a question with every word that its answer may begin with.
const FORMS: [&str; 12] = [
    "S entry",
    "S badreceiver",
    "S ambiguous",
    "S notfound",
    "M set",
    "N satisfied",
    "N missing",
    "I yes",
    "I no",
    "C yes",
    "C no",
    "V ok",
];

#[test]
fn the_manual_is_right_and_shows_every_answer_and_refusal() {
    let (mut words, mut forms) = (BTreeSet::new(), BTreeSet::new());
    let (manual, refusals) = (run("docs/MANUAL.md", 13), run("docs/REFUSALS.md", 13));
    for example in manual.iter().chain(&refusals) {
        words.extend(typeask::words(example.output.as_bytes()));
        forms.extend(example.forms());
    }
    for word in typeask::WORDS {
        assert!(words.contains(word), "the manual does not show {word}");
    }
    for form in FORMS {
        assert!(forms.contains(form), "the manual does not show {form}");
    }
}

#[test]
fn the_newest_entry_of_the_changelog_is_this_version() {
    let changelog = read("CHANGELOG.md");
    let newest = changelog.lines().find_map(|line| line.strip_prefix("## "));
    assert_eq!(newest, Some(env!("CARGO_PKG_VERSION")));
    let compare = read("host/compare/Cargo.toml");
    let version = format!("version = \"{}\"", env!("CARGO_PKG_VERSION"));
    assert!(compare.lines().any(|line| line == version), "not {version}");
    assert_eq!(yifgrun::version().to_string(), env!("CARGO_PKG_VERSION"));
}

const INPUT: &str = "```typeask\ntypetable 1\nT basic 2  // int\nQ\nC 0\n```\n";
const OUTPUT: &str = "```prints\nyes\n```\n";

#[test]
fn an_example_is_read_as_it_is_meant() {
    let found = examples(&format!("# A\n\n{INPUT}\n{OUTPUT}B\n```go\nx\n```\n"));
    let [example] = &found[..] else {
        panic!("one example, not {}", found.len());
    };
    assert_eq!(example.input, "typetable\t1\nT\tbasic\t2\nQ\nC\t0\n");
    assert_eq!((&*example.output, example.line), ("yes\n", 4));
    let repeated = written("2 times: F A# - # 1 / T struct");
    assert_eq!(
        repeated,
        "F\tA0\t-\t0\t1\nT\tstruct\nF\tA1\t-\t1\t1\nT\tstruct\n"
    );
}

#[test]
#[should_panic(expected = "line 2: half an example")]
fn an_input_alone_fails() {
    examples(INPUT);
}

#[test]
#[should_panic(expected = "line 2: half an example")]
fn an_output_alone_fails() {
    examples(OUTPUT);
}

#[test]
#[should_panic(expected = "line 2: half an example")]
fn two_inputs_in_a_row_fail() {
    examples(&format!("{INPUT}{INPUT}{OUTPUT}"));
}

#[test]
#[should_panic(expected = "line 2: half an example")]
fn words_within_a_pair_fail() {
    examples(&format!("{INPUT}prints\n{OUTPUT}"));
}

#[test]
#[should_panic(expected = "no kind of block")]
fn a_misspelt_block_fails() {
    examples("```typask\ntypetable 1\n```\n");
}

#[test]
#[should_panic(expected = "has no end")]
fn a_block_without_end_fails() {
    examples("```typeask\ntypetable 1\n");
}
