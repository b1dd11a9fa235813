//! The program gotable, which writes the types of Go packages as tables, and their selectors and method sets as questions
//! with go/types' answers: the library gives the same answers, on a stored sample and, where Go 1.19 is at hand, on
//! packages of the standard library.

// Tests are built by the Rust of the day; `rust-version` is for those who link the library.
#![allow(clippy::incompatible_msrv)]

#[path = "gotable/answers.rs"]
mod answers;
mod blocks;
mod bounds;
mod go;
#[path = "gotable/limits.rs"]
mod limits;
#[path = "gotable/names.rs"]
mod names;
#[path = "gotable/program.rs"]
mod program;
#[path = "gotable/repeated.rs"]
mod repeated;
mod said;
mod tidied;
#[path = "gotable/tidy.rs"]
mod tidy;

use answers::{compare_all, pairs};
use blocks::{first, only, read};
use go::go;
use program::{command, empty_folder, gotable, host, own, run, sum, written};
use said::say;
use std::fs;
use std::path::{Path, PathBuf};
use std::time::Instant;
use tidy::{say_tidied, tidy_all};

#[test]
fn the_stored_sample() {
    let count = compare_all(&host("testdata/gotable"));
    say(&format!("gotable, the stored sample: {count:?}"));
    assert!(count.tables > 0 && count.first_way > 0 && count.second_way > 0);
    let compare = &["compare", "testdata/gotable"];
    let (status, out, err) = run(Path::new(env!("CARGO_BIN_EXE_yifgrun")), &host(""), compare);
    assert_eq!((status, &*err), (0, ""));
    assert!(out.ends_with("2 files: 3,860 questions, as due\n"), "{out}");
}

/// The sample is what gotable writes of a module whose packages import one another.
#[test]
fn the_sample_is_written_again() {
    let Some(gotable) = gotable("the sample written again") else {
        return;
    };
    let to = empty_folder("gotable-sample");
    let module = host("gotable/testdata/office");
    let said = written(gotable, &module, &to, &["-every", "./card", "office/cat"]);
    assert_eq!(said, include_str!("gotable/sample.txt"));
    let (again, stored) = (pairs(&to), pairs(&host("testdata/gotable")));
    assert_eq!(again.len(), stored.len());
    for (again, stored) in again.iter().zip(&stored) {
        assert_eq!(again.name, stored.name);
        assert!(again.input == stored.input, "{}.in", stored.name);
        assert!(again.output == stored.output, "{}.out", stored.name);
        assert!(again.names == stored.names, "{}.names", stored.name);
    }
}

/// Each place that the sample names has the name that is asked for.
#[test]
fn the_places_in_the_source() {
    let mut count = 0;
    for pair in pairs(&host("testdata/gotable")) {
        for source in names::sources(&pair) {
            let [file, line, column] = source.place;
            let number = |text: &str| text.parse::<usize>().expect("a number") - 1;
            let text = read(&format!("host/gotable/testdata/{file}"));
            let line = text.lines().nth(number(line)).expect("a line");
            let (before, here) = line.split_at(number(column));
            assert!(before.ends_with('.'), "{}: {line}", source.place.join(":"));
            assert!(here.starts_with(source.name()), "{line}");
            count += 1;
        }
    }
    assert_eq!(count, sum(include_str!("gotable/sample.txt"), "S"));
}

/// The lines that the README shows of a file of names stand in that of the sample.
#[test]
fn the_names_of_the_readme() {
    let names = read("host/testdata/gotable/office-cat.1.names");
    let readme = read("host/gotable/README.md");
    let is_line = |text: &&str| text.starts_with("type ") || text.starts_with("line ");
    let shown: Vec<&str> = readme.split('`').filter(is_line).collect();
    assert_eq!(shown.len(), 4, "{shown:?}");
    for line in shown {
        assert!(names.lines().any(|due| due == line), "{line}");
    }
}

/// Packages of the standard library, small and large.
#[rustfmt::skip]
const STANDARD: [&str; 40] = [
    "archive/zip", "bufio", "bytes", "compress/flate", "container/list", "context", "crypto/elliptic", "crypto/tls",
    "crypto/x509", "database/sql", "debug/elf", "encoding/asn1", "encoding/gob", "encoding/json", "encoding/xml",
    "expvar", "flag", "fmt", "go/ast", "go/build", "go/parser", "go/printer", "go/types", "html/template",
    "image/png", "io", "log", "math/big", "net", "net/http", "os", "reflect", "regexp", "sort", "strings", "sync",
    "testing", "text/template", "text/template/parse", "time",
];

/// Fewer selectors than the packages above have in the sources of Go 1.19.
const SELECTORS: usize = 40_000;

#[test]
fn the_standard_library() {
    let lines = compare_packages("the standard library", &[], &STANDARD);
    if let Some(lines) = lines {
        assert!(sum(&lines, "selectors") >= SELECTORS);
        let shown = only("host/gotable/README.md", "text");
        assert!(lines.contains(&shown), "the README shows {shown}");
        let counts = tidy_all(&own("gotable-the-standard-library"));
        say_tidied("the standard library", &counts);
        let [written, repeated] = &counts;
        assert_eq!(written.types[0], sum(&lines, "types"));
        let gone = written.types[0] - written.types[1];
        assert!(100 * gone < written.types[0], "{gone} types have a twin");
        assert!(repeated.smaller >= 20, "{}", repeated.smaller);
    }
}

/// Identical types have one line in what gotable writes, so that it is tidy.
#[test]
fn the_stored_sample_is_tidied() {
    let counts = tidy_all(&host("testdata/gotable"));
    say_tidied("the stored sample", &counts);
    let [written, repeated] = &counts;
    assert_eq!((written.smaller, repeated.smaller), (0, 2));
    assert!(repeated.moved > 100, "{}", repeated.moved);
}

/// Every name on every receiver: here names are not found, ambiguous, or methods that a value does not have.
#[test]
fn every_name() {
    let packages = [
        "bufio",
        "go/ast",
        "io",
        "net",
        "sync",
        "text/template/parse",
    ];
    compare_packages("every name", &["-every"], &packages);
}

/// Runs gotable on packages, compares every answer, and says how many there were and how long it took. What gotable said
/// is given, a line for each package.
fn compare_packages(what: &str, options: &[&str], packages: &[&str]) -> Option<String> {
    let gotable = gotable(what)?;
    let to = empty_folder(&format!("gotable-{}", what.replace(' ', "-")));
    let begin = Instant::now();
    let lines = written(gotable, &to, &to, &[options, packages].concat());
    let writing = begin.elapsed();
    let begin = Instant::now();
    let count = compare_all(&to);
    let comparing = begin.elapsed();
    let total = |word| sum(&lines, word);
    assert_eq!(lines.lines().count(), packages.len());
    assert_eq!(count.tables, total("tables"));
    assert_eq!(count.same, total("S") + total("M") + total("every"));
    assert_eq!(count.sources, total("S"));
    let words = [
        "tables",
        "types",
        "members",
        "selectors",
        "S",
        "M",
        "every",
        "shared",
        "left out",
    ];
    let totals = words.map(|word| format!("{word} {}", total(word)));
    say(&format!(
        "{lines}gotable, {what}: {} packages, {}; written in {writing:.1?}, compared in {comparing:.1?}: {count:?}",
        packages.len(),
        totals.join(", ")
    ));
    Some(lines)
}

/// The README's commands, with folders of this test: the table of a package written, then compared by the command.
#[test]
fn the_commands_of_the_readme() {
    let Some(go) = go() else {
        return say("gotable, the README's commands: Go 1.19 is not at hand: not run");
    };
    let to = empty_folder("gotable-readme");
    let package = host("gotable/testdata/office/cat");
    let text = |path: &Path| path.to_str().expect("a path that is text").to_owned();
    let lines = first("host/gotable/README.md", "sh")
        .replace("/tmp/tables", &text(&to))
        .replace("/home/you/module/package", &text(&package))
        .replace("go run", &format!("{go} run"))
        .replace("host/target/release/yifgrun", env!("CARGO_BIN_EXE_yifgrun"));
    let ran = command("sh", &host("..")).args(["-ec", &lines]).output();
    let ran = ran.expect("a shell runs");
    let printed = String::from_utf8_lossy(&ran.stdout);
    assert!(ran.status.success(), "{lines}{ran:?}");
    assert!(printed.contains("\nnet/http: tables 6, "), "{printed}");
    assert!(printed.ends_with(" questions, as due\n"), "{printed}");
}

/// A folder with one Go file, outside of every module.
fn package(name: &str, text: &str) -> PathBuf {
    let folder = empty_folder(name);
    fs::write(folder.join("x.go"), text).expect("the folder takes a file");
    folder
}

#[test]
fn types_up_to_the_limits_and_past_them() {
    let Some(gotable) = gotable("limits") else {
        return;
    };
    let folder = package("limits", &limits::package());
    let to = empty_folder("gotable-limits");
    let said = written(gotable, &folder, &to, &["."]);
    assert_eq!(said, limits::SAID);
    let count = compare_all(&to);
    assert_eq!(count.tables, sum(&said, "tables"));
}

#[test]
fn a_package_that_is_not_found() {
    let Some(gotable) = gotable("no such package") else {
        return;
    };
    let folder = empty_folder("gotable-not-found");
    let (status, out, err) = run(gotable, &folder, &["no/such", "./none", "container/list"]);
    assert_eq!(status, 1);
    assert!(out.starts_with("container/list: tables 1, "), "{out}");
    assert!(
        err.starts_with("gotable: no/such: package no/such is not in GOROOT "),
        "{err}"
    );
    assert!(
        err.contains("\ngotable: ./none: cannot find package "),
        "{err}"
    );
}

/// A pattern is told, and what the go command makes of it can be written.
#[test]
fn a_pattern() {
    let Some(gotable) = gotable("patterns") else {
        return;
    };
    let (module, to) = (
        host("gotable/testdata/office"),
        empty_folder("gotable-pattern"),
    );
    let into = to.to_str().expect("a path that is text");
    let due = "gotable: ./...: patterns are not expanded: name packages, as by $(go list ./...)\n";
    assert_eq!(
        run(gotable, &module, &["-o", into, "./..."]),
        (1, String::new(), due.to_owned())
    );
    let go = go().expect("gotable was built by it");
    let (status, listed, _) = run(Path::new(&go), &module, &["list", "./..."]);
    assert_eq!(status, 0);
    let packages: Vec<&str> = listed.split_whitespace().collect();
    let said = written(gotable, &module, &to, &packages);
    assert_eq!(said.lines().count(), 2, "{said}");
}

#[test]
fn a_package_that_go_refuses() {
    let Some(gotable) = gotable("wrong packages") else {
        return;
    };
    let said = |name: &str, text: &str| run(gotable, &package(name, text), &["."]);
    let wrong = said(
        "types",
        "package types\n\ntype T struct{}\n\nvar x = T{}.y\nvar z int = \"\"\n",
    );
    let due = "# types\nx.go:5:13: (T literal).y undefined (type T has no field or method y)\n\
               x.go:6:13: cannot use \"\" (untyped string constant) as int value in variable declaration\n";
    assert_eq!(wrong, (1, String::new(), due.to_owned()));
    let wrong = said("parses", "package parses\n\nfunc {\n");
    let due = "# parses\nx.go:3:6: expected 'IDENT', found '{'\n";
    assert_eq!(wrong, (1, String::new(), due.to_owned()));
}

#[test]
fn wrong_use() {
    let Some(gotable) = gotable("wrong use") else {
        return;
    };
    let run = |arguments: &[&str]| run(gotable, Path::new(env!("CARGO_TARGET_TMPDIR")), arguments);
    let usage = include_str!("gotable/usage.txt");
    let wrong = |what: &str| (2, String::new(), format!("gotable: {what}\n{usage}"));
    assert_eq!(run(&[]), wrong("no package is named"));
    assert_eq!(run(&["-every"]), wrong("no package is named"));
    assert_eq!(
        run(&["-all", "io"]),
        wrong("flag provided but not defined: -all")
    );
    assert_eq!(run(&["-o"]), wrong("flag needs an argument: -o"));
    assert_eq!(run(&["-h"]), (0, usage.to_owned(), String::new()));
}

/// gotable's own tests, in Go; its files are formatted, and go vet finds nothing.
#[test]
fn its_own_tests() {
    let Some(go) = go() else {
        return say("gotable's own tests: Go 1.19 is not at hand: not run");
    };
    for arguments in [&["test", "."][..], &["vet", "."]] {
        let ran = command(&go, &host("gotable")).args(arguments).output();
        let ran = ran.expect("go runs");
        assert!(ran.status.success(), "{arguments:?}: {ran:?}");
    }
    let gofmt = Path::new(&go).with_file_name("gofmt");
    let unformatted = command(gofmt, &host("gotable")).args(["-l", "."]).output();
    assert_eq!(unformatted.expect("gofmt runs").stdout, b"");
}
