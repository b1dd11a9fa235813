//! Go's own checker, package go/types of 1.19, on the same tables: every difference is one that docs/DIFFERENCES.md explains.

mod batches;
#[path = "../../tests/go/mod.rs"]
mod go;
#[path = "../../tests/said/mod.rs"]
mod said;

use compare::agreement::{agrees, Agreement};
use compare::departures::{due, member_of, selected};
use compare::engine::{self, Engine};
use compare::prng::Prng;
use compare::question::Question;
use compare::random::{self, Shape};
use compare::table::Table;
use compare::{refusals, typeask};
use go::go;
use said::say;
use std::io::Write;
use std::path::{Path, PathBuf};
use std::process::{Command, Stdio};
use std::sync::OnceLock;
use std::{env, thread};

/// The program over go/types, built once, if Go 1.19 is installed.
fn program() -> Option<&'static Path> {
    static BUILT: OnceLock<Option<PathBuf>> = OnceLock::new();
    BUILT.get_or_init(|| go().map(|go| build(&go))).as_deref()
}

fn build(go: &str) -> PathBuf {
    let folder = Path::new(env!("CARGO_MANIFEST_DIR")).join("gotypes");
    let to = Path::new(env!("CARGO_TARGET_TMPDIR"));
    let built = to.join("gotypes");
    let done = Command::new(go)
        .args(["build", "-o"])
        .args([&built, Path::new(".")])
        .current_dir(folder)
        .env("GOCACHE", to.join("go-cache"))
        .env("GOFLAGS", "-mod=mod")
        .status();
    assert!(done.expect("go runs").success(), "gotypes is built");
    built
}

/// A table that loads, and questions on it.
type Case = (String, Vec<String>);

/// What go/types answers, case by case and question by question.
fn go_answers(program: &Path, cases: &[Case]) -> Vec<Vec<String>> {
    let mut input = String::from("BATCH\n");
    for (table, questions) in cases {
        input += table;
        input += "Q\n";
        for question in questions {
            input += question;
            input.push('\n');
        }
        input += "---\n";
    }
    let mut run = Command::new(program)
        .stdin(Stdio::piped())
        .stdout(Stdio::piped())
        .spawn()
        .expect("gotypes runs");
    let mut stdin = run.stdin.take().expect("its input");
    let writer = thread::spawn(move || stdin.write_all(input.as_bytes()));
    let output = run.wait_with_output().expect("its output");
    writer.join().expect("written").expect("written");
    let output = String::from_utf8(output.stdout).expect("text");
    let cases = output.split_terminator("---\n");
    cases.map(typeask::answers).collect()
}

/// How often go/types agrees, and how often each explained difference is met.
#[derive(Debug, Default)]
struct Count {
    equal: usize,
    /// `ambiguous`, and go/types' way is the first of the two, or the second.
    first_way: usize,
    second_way: usize,
    pointer_receiver_only: usize,
}

/// Holds one case against go/types' answers; what is not explained fails.
fn hold(engine: &mut dyn Engine, (table, questions): &Case, theirs: &[String], count: &mut Count) {
    assert_eq!(theirs.len(), questions.len(), "{table}\n{theirs:?}");
    engine.load(table).expect("it loads");
    let parsed = Table::parse(table).expect("a table");
    for (question, theirs) in questions.iter().zip(theirs) {
        let ours = answer(engine, &parsed, question);
        match agreement(engine, &ours, theirs) {
            Some(Agreement::First) => count.first_way += 1,
            Some(Agreement::Second) => count.second_way += 1,
            Some(_) => count.equal += 1,
            None => assert!(
                explained(engine, &parsed, question, &ours, theirs, count),
                "{table}\n{question}\nours: {ours}go: {theirs}"
            ),
        }
    }
}

/// The library's answer, or the one that goscript's stands for: its sets without the two departures of document 02.
fn answer(engine: &mut dyn Engine, table: &Table, question: &str) -> String {
    let answer = engine.ask(question).expect("an answer");
    match engine.name() {
        "goscript" => due(engine, table, question, answer).0,
        _ => answer,
    }
}

/// How go/types' answer agrees with ours. goscript shows one way of an ambiguous name, and it must be go/types'.
fn agreement(engine: &dyn Engine, ours: &str, theirs: &str) -> Option<Agreement> {
    if engine.name() == "goscript" {
        return (ours == theirs).then_some(Agreement::Equal);
    }
    agrees(theirs, ours)
}

/// N alone may differ, in w of a method that is there with a pointer receiver.
fn explained(
    engine: &mut dyn Engine,
    table: &Table,
    question: &str,
    ours: &str,
    theirs: &str,
    count: &mut Count,
) -> bool {
    let Some(Question::Missing { t, .. }) = Question::parse(question) else {
        return false;
    };
    count.pointer_receiver_only += 1;
    let member = member_of(ours);
    ours == format!("missing\t{member}\t0\n")
        && theirs == format!("missing\t{member}\t1\n")
        && selected(engine, table, t, false, member) == "badreceiver\n"
}

/// The library where this is built with it, otherwise goscript.
fn ours() -> Option<Box<dyn Engine>> {
    engine::library().or_else(engine::goscript)
}

fn compare_all(cases: &[Case], what: &str) {
    let (Some(program), Some(mut engine)) = (program(), ours()) else {
        say(&format!(
            "{what}: Go 1.19 or the answers to compare are not at hand: nothing compared"
        ));
        return;
    };
    let theirs = go_answers(program, cases);
    assert_eq!(theirs.len(), cases.len());
    let mut count = Count::default();
    for (case, theirs) in cases.iter().zip(&theirs) {
        hold(engine.as_mut(), case, theirs, &mut count);
    }
    let (tables, name) = (cases.len(), engine.name());
    say(&format!(
        "go/types, {what}, {tables} tables, {name}: {count:?}"
    ));
    let both_met = count.first_way > 0 && count.second_way > 0;
    assert!(both_met || name == "goscript", "{count:?}");
}

/// The table of an input and the questions that go/types takes, if the table loads.
fn asked(input: &[u8]) -> Option<Case> {
    let (text, questions) = typeask::parted(input);
    let table = refusals::table(text).ok()?;
    let taken = |q: &&[u8]| *q != b"V" && refusals::question(&table, q).is_ok();
    let taken = questions.into_iter().filter(taken);
    let line = |q: &[u8]| String::from_utf8(q.to_vec()).expect("its form is right");
    Some((table.to_string(), taken.map(line).collect()))
}

#[test]
fn stored_tables() {
    let mut stored = batches::cases(&batches::sample(), "sample");
    if let Some(folder) = batches::vectors() {
        stored.extend(
            ["small", "mixed"]
                .iter()
                .flat_map(|name| batches::cases(&folder, name)),
        );
    }
    if let Some(folder) = batches::vectors_02() {
        let pairs = ["1", "2", "4", "5"];
        stored.extend(pairs.iter().flat_map(|name| batches::cases(&folder, name)));
    }
    stored.sort();
    stored.dedup();
    let cases: Vec<Case> = stored
        .iter()
        .filter_map(|(input, _)| asked(input))
        .collect();
    compare_all(&cases, "stored");
}

#[test]
fn random_tables() {
    let mut prng = Prng::new(19);
    let mut cases = Vec::new();
    for (count, shape) in [
        (600, Shape::tiny()),
        (200, Shape::small()),
        (40, Shape::middle()),
        (4, Shape::largest()),
    ] {
        for _ in 0..count {
            let table = random::table(&mut prng, &shape);
            let questions = random::questions(&mut prng, &table, 60);
            cases.push((table.to_string(), questions));
        }
    }
    compare_all(&cases, "random");
}

/// A difference at its smallest: table and question, and the answers of goscript, the library and go/types.
struct Difference {
    table: &'static str,
    question: &'static str,
    goscript: &'static str,
    ours: &'static str,
    go: &'static str,
}

/// The rows of docs/DIFFERENCES.md, "goscript, the library and the Go spec", in order; blanks stand for tabs.
const DIFFERENCES: [Difference; 4] = [
    Difference {
        table: "T basic 2\nT tuple\nT func 0 1 1\nT struct\nT named 3\nM X - 2 0\nT struct\nF X - 0 0\nF K - 4 1\n",
        question: "M 5",
        goscript: "set 1\nsel 0 0 1 0\n",
        ours: "set 0\n",
        go: "set 0\n",
    },
    Difference {
        table: "T tuple\nT func 0 0 0\nT iface\nM X - 1 0\nT named 2\nT pointer 3\n",
        question: "M 4",
        goscript: "set 1\nsel 0 1 0\n",
        ours: "set 0\n",
        go: "set 0\n",
    },
    // The Go spec's words alone would allow a second pointer to be removed; go/types does not.
    Difference {
        table: "T basic 2\nT struct\nF X - 0 0\nT pointer 1\nT pointer 2\nT named 3\n",
        question: "S 4 0 - X",
        goscript: "notfound\n",
        ours: "notfound\n",
        go: "notfound\n",
    },
    Difference {
        table: "T tuple\nT func 0 0 0\nT struct\nT named 2\nM X - 1 1\nT iface\nM X - 1 0\n",
        question: "N 3 4 0",
        goscript: "missing 1 0\n",
        ours: "missing 1 0\n",
        go: "missing 1 1\n",
    },
];

#[test]
fn each_difference_at_its_smallest() {
    for d in DIFFERENCES {
        let tabbed = |text: &str| text.replace(' ', "\t");
        let table = tabbed("typetable 1\n") + &tabbed(d.table);
        for (engine, due) in [
            (engine::library(), d.ours),
            (engine::goscript(), d.goscript),
        ] {
            let Some(mut engine) = engine else { continue };
            engine.load(&table).expect("it loads");
            let answer = engine.ask(&tabbed(d.question));
            assert_eq!(answer, Some(tabbed(due)), "{table}{}", engine.name());
        }
        if let Some(program) = program() {
            let case = (table, vec![tabbed(d.question)]);
            let answers = go_answers(program, &[case]);
            assert_eq!(answers, [[tabbed(d.go)]], "{}", d.question);
        }
    }
}
