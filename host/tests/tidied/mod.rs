//! What a tidied table is due to be, and what its answers are, read off the text and the answers to I before it is tidied.

// Each test takes what it needs.
#![allow(dead_code)]

use std::collections::BTreeMap;
use std::ops::{AddAssign, Range};
use yifgrun::{each_answer, Answers};

/// A table text by its types: the lines before them, and those of each, the T line first.
pub struct Lines<'a> {
    before: Vec<&'a str>,
    types: Vec<Vec<&'a str>>,
    /// The number of each type's first member, and behind the last that of all members.
    first: Vec<usize>,
}

impl<'a> Lines<'a> {
    pub fn of(table: &'a str) -> Lines<'a> {
        let (mut before, mut types) = (Vec::new(), Vec::<Vec<&str>>::new());
        for line in table.lines() {
            match types.last_mut() {
                _ if line.starts_with("T\t") => types.push(vec![line]),
                Some(last) => last.push(line),
                None => before.push(line),
            }
        }
        let mut first = vec![0];
        for lines in &types {
            first.push(first[first.len() - 1] + lines.len() - 1);
        }
        Lines {
            before,
            types,
            first,
        }
    }

    pub fn types(&self) -> usize {
        self.types.len()
    }

    /// The lines of a type, the T line first.
    pub fn of_type(&self, t: usize) -> &[&'a str] {
        &self.types[t]
    }

    /// The text with types in place of its own.
    pub fn with_types(&self, types: impl IntoIterator<Item = String>) -> String {
        let before = self.before.iter().map(|line| format!("{line}\n"));
        before.chain(types).collect()
    }

    /// The number of a member's type and its place there.
    fn place(&self, member: usize) -> (usize, usize) {
        let t = self.first.partition_point(|&first| first <= member) - 1;
        (t, member - self.first[t])
    }
}

/// Lines, each with its newline, and with each type number put through `number`.
pub fn all_renumbered(lines: &[&str], mut number: impl FnMut(usize) -> usize) -> String {
    let renumber = |line: &&str| renumbered(line, &mut number) + "\n";
    lines.iter().map(renumber).collect()
}

/// A line with each type number put through `number`.
fn renumbered(line: &str, number: impl FnMut(usize) -> usize) -> String {
    let fields: Vec<&str> = line.split('\t').collect();
    let from = match (fields[0], fields.get(1)) {
        ("T", Some(&"basic")) => fields.len(),
        ("T", Some(&("array" | "chan" | "func"))) => 3,
        ("T", _) => 2,
        // letter, name, package, type
        _ => 3,
    };
    let to = if fields[0] == "T" { fields.len() } else { 4 };
    with_numbers(&fields, from..to, number)
}

/// Fields as a line, with the numbers at some places put through `number`.
fn with_numbers(
    fields: &[&str],
    places: Range<usize>,
    mut number: impl FnMut(usize) -> usize,
) -> String {
    let field = |(place, field): (usize, &&str)| match place {
        place if places.contains(&place) => number(parsed(field)).to_string(),
        _ => field.to_string(),
    };
    let fields: Vec<String> = fields.iter().enumerate().map(field).collect();
    fields.join("\t")
}

fn parsed(field: &str) -> usize {
    field.parse().expect("a number")
}

/// A table that is due to be given for another, and the new numbers of the old types.
pub struct Due {
    pub text: String,
    pub numbers: Vec<usize>,
}

impl Due {
    /// By the answers to I on each two types of a table.
    pub fn of(table: &str) -> Due {
        let lines = Lines::of(table);
        let least = least(table, lines.types());
        let stays = |t: usize| least[t] == t;
        let number = |t: usize| (0..least[t]).filter(|&u| stays(u)).count();
        let kept = (0..lines.types()).filter(|&t| stays(t));
        let kept = kept.map(|t| all_renumbered(lines.of_type(t), number));
        Due {
            text: lines.with_types(kept),
            numbers: (0..lines.types()).map(number).collect(),
        }
    }
}

/// The least type that each is identical to.
fn least(table: &str, types: usize) -> Vec<usize> {
    let pairs = || (0..types).flat_map(|y| (0..y).map(move |x| (x, y)));
    let questions: String = pairs().map(|(x, y)| format!("I\t{x}\t{y}\n")).collect();
    let mut answers = Answers::new();
    let answers = answers.ask_all(table.as_bytes(), questions.as_bytes());
    let mut least: Vec<usize> = (0..types).collect();
    for ((x, y), answer) in pairs().zip(each_answer(answers.expect("it loads"))) {
        match answer {
            Ok(b"yes\n") => least[y] = least[y].min(x),
            answer => assert_eq!(answer, Ok(&b"no\n"[..]), "I {x} {y}"),
        }
    }
    least
}

/// A question, but for V, with its types carried over.
pub fn carried(question: &str, numbers: &[usize]) -> String {
    let fields: Vec<&str> = question.split('\t').collect();
    let types = match fields[0] {
        "N" | "I" => 1..3,
        _ => 1..2,
    };
    with_numbers(&fields, types, |t| numbers[t])
}

/// How many answers were compared: by the letter of the question and the first word of the answer, and how many members
/// were carried to another number.
#[derive(Debug, Default)]
pub struct Count {
    pub tables: usize,
    /// Of these, such as have fewer types behind.
    pub smaller: usize,
    pub types: [usize; 2],
    pub bytes: [usize; 2],
    pub forms: BTreeMap<String, usize>,
    pub moved: usize,
}

impl AddAssign for Count {
    fn add_assign(&mut self, other: Count) {
        self.tables += other.tables;
        self.smaller += other.smaller;
        for k in 0..2 {
            self.types[k] += other.types[k];
            self.bytes[k] += other.bytes[k];
        }
        for (form, count) in other.forms {
            *self.forms.entry(form).or_default() += count;
        }
        self.moved += other.moved;
    }
}

/// A table, the tidied one, and the numbers that lead from one to the other.
pub struct Pair<'a> {
    before: (&'a str, Lines<'a>),
    behind: (&'a str, Lines<'a>),
    numbers: &'a [usize],
}

impl<'a> Pair<'a> {
    pub fn new(table: &'a str, tidied: &'a str, numbers: &'a [usize]) -> Pair<'a> {
        let [before, behind] = [table, tidied].map(|text| (text, Lines::of(text)));
        Pair {
            before,
            behind,
            numbers,
        }
    }

    /// Holds the answers to questions on the table against those to the carried ones on the tidied table, to the byte, with
    /// members carried.
    pub fn hold(&self, questions: &[String]) -> Count {
        let carried: Vec<String> = questions.iter().map(|q| carried(q, self.numbers)).collect();
        let mut count = self.sizes();
        let before = answered(self.before.0, questions);
        let behind = answered(self.behind.0, &carried);
        for ((question, before), behind) in questions.iter().zip(&before).zip(&behind) {
            let due = self.carried_answer(question, before, &mut count.moved);
            assert_eq!(
                *behind, due,
                "{question}\n{}\n{}",
                self.before.0, self.behind.0
            );
            let word = before.split(['\t', '\n']).next().unwrap_or("");
            let form = format!("{} {word}", &question[..1]);
            *count.forms.entry(form).or_default() += 1;
        }
        count
    }

    fn sizes(&self) -> Count {
        let types = [self.before.1.types(), self.behind.1.types()];
        Count {
            tables: 1,
            smaller: usize::from(types[1] < types[0]),
            types,
            bytes: [self.before.0.len(), self.behind.0.len()],
            ..Count::default()
        }
    }

    /// An answer with its members carried to the same place under the remaining twin: of S and M that is the way's last place,
    /// of N the place in the interface.
    fn carried_answer(&self, question: &str, answer: &str, moved: &mut usize) -> String {
        let mut carried = String::new();
        for line in answer.lines() {
            let mut fields: Vec<String> = line.split('\t').map(str::to_owned).collect();
            if ["entry", "sel", "missing"].contains(&&*fields[0]) {
                let (t, place) = self.before.1.place(parsed(&fields[1]));
                match &*fields[0] {
                    "missing" => assert_eq!(question.split('\t').nth(2), Some(&*t.to_string())),
                    _ => assert_eq!(fields.last(), Some(&place.to_string()), "{question}"),
                }
                let first = self.behind.1.first[self.numbers[t]];
                let number = (first + place).to_string();
                *moved += usize::from(number != fields[1]);
                fields[1] = number;
            }
            carried += &(fields.join("\t") + "\n");
        }
        carried
    }
}

/// The answer to each question, or the words of its refusal.
fn answered(table: &str, questions: &[String]) -> Vec<String> {
    let mut answers = Answers::new();
    let lines: String = questions.iter().map(|q| format!("{q}\n")).collect();
    let answers = answers.ask_all(table.as_bytes(), lines.as_bytes());
    let text = |answer: &[u8]| String::from_utf8(answer.to_vec()).expect("text");
    each_answer(answers.expect("it loads"))
        .map(|answer| answer.map_or_else(|refusal| format!("{refusal}\n"), text))
        .collect()
}
