//! The command `compare`: answers held against those that are due.

use crate::answer::shown;
use crate::files;
use crate::input::Input;
use crate::output::{counted, grouped, one_line, Output, Status};
use std::ffi::OsString;
use std::fs;
use std::path::{Path, PathBuf};
use yifgrun::{each_answer, Answers, Refusal};

/// How many were compared, and how many of the answers are not as due.
#[derive(Default)]
struct Tally {
    files: usize,
    questions: usize,
    differences: usize,
}

impl Tally {
    fn add(&mut self, other: &Tally) {
        self.files += other.files;
        self.questions += other.questions;
        self.differences += other.differences;
    }

    fn words(&self) -> String {
        let questions = counted(self.questions, "question");
        match self.differences {
            0 => format!("{questions}, as due"),
            differences => format!("{questions}, {} not as due", grouped(differences)),
        }
    }
}

/// Compares the files of all paths. What cannot be compared is told, and the others are compared all the same.
pub fn compare(paths: &[OsString], output: &mut Output) -> Result<Status, String> {
    let (mut total, mut status) = (Tally::default(), Status::Good);
    for file in all_files(paths) {
        match file.and_then(|file| Pair::read(&file)) {
            Ok(pair) => total.add(&pair.compare(output)?),
            Err(trouble) => {
                output.tell(&trouble)?;
                status = Status::Failed;
            }
        }
    }
    if total.files > 1 {
        let files = counted(total.files, "file");
        output.print(format!("{files}: {}\n", total.words()))?;
    }
    if total.differences > 0 {
        status = status.max(Status::Refused);
    }
    Ok(status)
}

/// The files of all paths, or why a path has none.
fn all_files(paths: &[OsString]) -> Vec<Result<PathBuf, String>> {
    let of = |path: &OsString| match files::of(Path::new(path)) {
        Ok(files) => files.into_iter().map(Ok).collect(),
        Err(trouble) => vec![Err(trouble)],
    };
    paths.iter().flat_map(of).collect()
}

/// A file of questions and the answers that are given and due.
struct Pair {
    input: Input,
    given: Result<Vec<String>, Refusal>,
    due: Vec<String>,
}

impl Pair {
    /// Reads a file X.in and the X.out beside it, and asks the questions.
    fn read(file: &Path) -> Result<Pair, String> {
        let input = Input::read(file.as_os_str())?;
        let beside = file.with_extension("out");
        let due = fs::read(&beside).map_err(|error| format!("{}: {error}", beside.display()))?;
        let due = parted(&due);
        let mut answers = Answers::new();
        let given = answers.ask_all(input.table(), input.questions());
        let given = given.map(parted);
        let pair = Pair { input, given, due };
        pair.fits(&beside)?;
        Ok(pair)
    }

    /// Whether as many answers are due as questions are asked.
    fn fits(&self, beside: &Path) -> Result<(), String> {
        let questions = self.given.as_ref().map_or(self.due.len(), Vec::len);
        let due = self.due.len();
        if due == questions {
            return Ok(());
        }
        let (due, questions) = (counted(due, "answer"), counted(questions, "question"));
        let (beside, name) = (beside.display(), &self.input.name);
        Err(format!("{beside}: {due}, and {name} has {questions}"))
    }

    /// Prints every difference, and how many there are.
    fn compare(&self, output: &mut Output) -> Result<Tally, String> {
        match &self.given {
            Ok(given) => self.compare_each(given, output),
            Err(refusal) => self.compare_refusal(*refusal, output),
        }
    }

    fn compare_each(&self, given: &[String], output: &mut Output) -> Result<Tally, String> {
        let name = &self.input.name;
        let mut tally = Tally {
            files: 1,
            questions: given.len(),
            differences: 0,
        };
        let answers = given.iter().zip(&self.due);
        for ((line, question), (given, due)) in self.input.each_question().zip(answers) {
            if !agrees(given, due) {
                let which = self.input.at(line, &shown(question));
                output.print(difference(&which, given, due))?;
                tally.differences += 1;
            }
        }
        output.print(format!("{name}: {}\n", tally.words()))?;
        Ok(tally)
    }

    /// A refused table prints one line, whatever is asked.
    fn compare_refusal(&self, refusal: Refusal, output: &mut Output) -> Result<Tally, String> {
        let (name, given) = (&self.input.name, refused(refusal));
        let agrees = self.due.len() == 1 && self.due[0] == given;
        if agrees {
            output.print(format!("{name}: the table is refused, as due\n"))?;
        } else {
            let due = self.due.first().map_or("", |due| due);
            let which = self.input.at(refusal.line.into(), "the table");
            output.print(difference(&which, &given, due))?;
            output.print(format!("{name}: the table is refused, not as due\n"))?;
        }
        Ok(Tally {
            files: 1,
            questions: 0,
            differences: usize::from(!agrees),
        })
    }
}

/// The answers of a text, each with all its lines but without the last newline.
fn parted(answers: &[u8]) -> Vec<String> {
    let bare = |answer: &[u8]| {
        let bare = answer.strip_suffix(b"\n").unwrap_or(answer);
        String::from_utf8_lossy(bare).into_owned()
    };
    each_answer(answers)
        .map(|answer| answer.map_or_else(refused, bare))
        .collect()
}

/// A refusal as it is printed.
fn refused(refusal: Refusal) -> String {
    format!("refused\t{}\t{}", refusal.number(), refusal.line)
}

/// Whether an answer is as due. Go's checker tells one way of an ambiguous name: it is one of the two that are given.
fn agrees(given: &str, due: &str) -> bool {
    let way = |line: &str| line.split_once('\t').map(|(_, way)| way.to_owned());
    let one_way = due.starts_with("ambiguous\t") && !due.contains('\n');
    let is_ambiguous = given.starts_with("ambiguous\t");
    given == due || one_way && is_ambiguous && given.lines().any(|line| way(line) == way(due))
}

/// Which question it is, and what is due and given, blanks for tabs.
fn difference(which: &str, given: &str, due: &str) -> String {
    let lines = |answer: &str| {
        let lines = answer.split('\n').map(|line| line.replace('\t', " "));
        let lines: Vec<String> = lines.map(|line| one_line(&line)).collect();
        lines.join("\n         ")
    };
    let (which, due, given) = (one_line(which), lines(due), lines(given));
    format!("{which}\n  due:   {due}\n  given: {given}\n")
}
