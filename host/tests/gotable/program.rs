//! gotable built and run, where Go 1.19 is at hand.

use crate::go::go;
use crate::said::say;
use std::fs;
use std::path::{Path, PathBuf};
use std::process::Command;
use std::sync::OnceLock;

/// A path of this package.
pub fn host(path: &str) -> PathBuf {
    Path::new(env!("CARGO_MANIFEST_DIR")).join(path)
}

/// A path in the tests' own folder.
pub fn own(path: &str) -> PathBuf {
    Path::new(env!("CARGO_TARGET_TMPDIR")).join(path)
}

/// A folder for one test alone, empty.
pub fn empty_folder(name: &str) -> PathBuf {
    let folder = own(name);
    if folder.exists() {
        fs::remove_dir_all(&folder).expect("an old folder goes");
    }
    fs::create_dir_all(&folder).expect("a new folder");
    folder
}

/// A command that runs in a folder, with a build cache of the tests' own and without the settings of the one who runs them.
pub fn command(program: impl AsRef<Path>, folder: &Path) -> Command {
    let mut command = Command::new(program.as_ref());
    command.current_dir(folder).env("GOCACHE", own("go-cache"));
    command.env("GOFLAGS", "").env("GO111MODULE", "");
    command
}

fn build(go: &str) -> PathBuf {
    let built = own("gotable-built");
    let mut command = command(go, &host("gotable"));
    let done = command.args(["build", "-o"]).arg(&built).arg(".").status();
    assert!(done.expect("go runs").success(), "gotable is built");
    built
}

/// gotable, built once. Where Go 1.19 is not at hand, it says what is not run.
pub fn gotable(what: &str) -> Option<&'static Path> {
    static BUILT: OnceLock<Option<PathBuf>> = OnceLock::new();
    let built = BUILT.get_or_init(|| go().map(|go| build(&go)));
    if built.is_none() {
        say(&format!("gotable, {what}: Go 1.19 is not at hand: not run"));
    }
    built.as_deref()
}

/// Runs gotable in a folder, and gives its status, output and errors.
pub fn run(gotable: &Path, folder: &Path, arguments: &[&str]) -> (i32, String, String) {
    let ran = command(gotable, folder).args(arguments).output();
    let ran = ran.expect("gotable runs");
    let text = |bytes| String::from_utf8(bytes).expect("text");
    let status = ran.status.code().expect("a status");
    (status, text(ran.stdout), text(ran.stderr))
}

/// Runs gotable into a folder, without errors, and gives a line for each package.
pub fn written(gotable: &Path, from: &Path, to: &Path, arguments: &[&str]) -> String {
    let to = to.to_str().expect("a path that is text");
    let arguments = [&["-o", to], arguments].concat();
    let (status, out, err) = run(gotable, from, &arguments);
    assert_eq!((status, &*err), (0, ""));
    out
}

/// The sum over lines of the number behind a word.
pub fn sum(lines: &str, word: &str) -> usize {
    let word = format!(" {word} ");
    let number = |line: &str| {
        let behind = line.split_once(&word)?.1;
        behind.split([',', ' ']).next()?.parse::<usize>().ok()
    };
    let numbers = lines.lines().map(number);
    numbers.map(|n| n.expect("the word and a number")).sum()
}
