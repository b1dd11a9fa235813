//! A table with its buffers, asked by typed questions.

use crate::{each_answer, Answer, Answers, Counts, Method, Package, Question, Refusal};
use crate::{explain, twins, Satisfaction, Selection, Type};
use std::fmt::Write;
use std::str;

/// A table that loads, with the buffers of its questions.
///
/// Each question is one call of the archive, which loads the table; [`ask_all`](Library::ask_all) asks many in one
/// call, and loads it once.
///
/// ```
/// use yifgrun::{Library, Member, Package, Selection, Type};
///
/// // type Block struct { Len int }, type Log struct { Len int }, struct { Block; *Log; Name int }
/// let table = "typetable 1\nP office\nT basic 2\nT struct\nF Len 0 0 0\nT named 1\nT named 1\nT pointer 3\n\
///     T struct\nF Block 0 2 1\nF Log 0 4 1\nF Name 0 0 0\n";
/// let mut library = Library::new(table.replace(' ', "\t"))?;
/// let office = Some(Package(0));
///
/// let len = library.select(Type(5), false, office, "Len")?;
/// assert_eq!(len, Selection::Ambiguous { first: vec![0, 0], second: vec![1, 0] });
/// let name = library.select(Type(5), false, office, "Name")?;
/// assert_eq!(name, Selection::Entry { member: Member(3), indirect: false, way: vec![2] });
/// assert!(!library.identical(Type(2), Type(3))?);
/// assert!(library.comparable(Type(5))?);
/// # Ok::<(), yifgrun::Refusal>(())
/// ```
#[derive(Clone, Debug)]
pub struct Library {
    table: Vec<u8>,
    counts: Counts,
    answers: Answers,
}

impl Library {
    /// Loads a table text. A text that is refused gives its refusal; behind that only questions are refused.
    pub fn new(table: impl Into<Vec<u8>>) -> Result<Library, Refusal> {
        let table = table.into();
        let mut answers = Answers::new();
        let loaded = read(answers.ask(&table, b"V")?);
        match loaded {
            Answer::Loaded(counts) => Ok(Library {
                table,
                counts,
                answers,
            }),
            other => unlike("V", &other),
        }
    }

    /// The table text.
    pub fn table(&self) -> &[u8] {
        &self.table
    }

    /// How many packages, types and members the table has: the question V.
    pub fn counts(&self) -> Counts {
        self.counts
    }

    /// Which field or method is `x.name`, for an x of type `receiver`, in `package`: the question S. `addressable`
    /// says whether x is, as a variable is.
    pub fn select(
        &mut self,
        receiver: Type,
        addressable: bool,
        package: Option<Package>,
        name: &str,
    ) -> Result<Selection, Refusal> {
        let question = Question::select(receiver, addressable, package, name);
        match self.ask(&question)? {
            Answer::Selection(selection) => Ok(selection),
            other => unlike("S", &other),
        }
    }

    /// The method set of a type, in the order of the methods' ids: the question M.
    pub fn method_set(&mut self, of: Type) -> Result<Vec<Method>, Refusal> {
        match self.ask(&Question::MethodSet { of })? {
            Answer::MethodSet(methods) => Ok(methods),
            other => unlike("M", &other),
        }
    }

    /// Whether a type has the methods of an interface, or which it lacks: the question N. `interface` is the interface
    /// itself: of `type Stringer interface { .. }` it is the type under the name, and the name is refused by
    /// [`NotAnInterface`](crate::RefusalKind::NotAnInterface). Where `of` is an interface too, `is_static` asks whether every value of it has them, and otherwise whether some value might, as a type
    /// assertion does.
    pub fn missing(
        &mut self,
        of: Type,
        interface: Type,
        is_static: bool,
    ) -> Result<Satisfaction, Refusal> {
        let question = Question::Missing {
            of,
            interface,
            is_static,
        };
        match self.ask(&question)? {
            Answer::Satisfaction(satisfaction) => Ok(satisfaction),
            other => unlike("N", &other),
        }
    }

    /// Whether two types are identical: the question I.
    pub fn identical(&mut self, left: Type, right: Type) -> Result<bool, Refusal> {
        self.holds(&Question::Identical { left, right })
    }

    /// Whether values of a type can be compared by `==`: the question C.
    pub fn comparable(&mut self, of: Type) -> Result<bool, Refusal> {
        self.holds(&Question::Comparable { of })
    }

    fn holds(&mut self, question: &Question) -> Result<bool, Refusal> {
        match self.ask(question)? {
            Answer::Holds(holds) => Ok(holds),
            other => unlike("I and C", &other),
        }
    }

    /// The answer to a question. A question is refused by [`Question`](crate::RefusalKind::Question) or
    /// [`NotAnInterface`](crate::RefusalKind::NotAnInterface).
    pub fn ask(&mut self, question: &Question) -> Result<Answer, Refusal> {
        let line = question.to_string();
        self.answers.ask(&self.table, line.as_bytes()).map(read)
    }

    /// The answers to questions in their order, in one call, which loads the table once. A refused question does not
    /// keep the others from their answers.
    ///
    /// ```
    /// use yifgrun::{Answer, Library, Question, RefusalKind, Type};
    ///
    /// let mut library = Library::new("typetable\t1\nT\tbasic\t2\nT\tslice\t0\n")?;
    /// let comparable = |of| Question::Comparable { of: Type(of) };
    /// let answers = library.ask_all(&[comparable(0), comparable(7), comparable(1)]);
    /// assert_eq!(answers[0], Ok(Answer::Holds(true)));
    /// assert_eq!(answers[1].as_ref().unwrap_err().kind, RefusalKind::Question);
    /// assert_eq!(answers[2], Ok(Answer::Holds(false)));
    /// # Ok::<(), yifgrun::Refusal>(())
    /// ```
    pub fn ask_all(&mut self, questions: &[Question]) -> Vec<Result<Answer, Refusal>> {
        let mut lines = String::new();
        questions.iter().for_each(|q| push_line(&mut lines, q));
        match self.answers.ask_all(&self.table, lines.as_bytes()) {
            Ok(answers) => each_answer(answers).map(|a| a.map(read)).collect(),
            Err(refusal) => panic!("a table that loaded is refused: {refusal}"),
        }
    }

    /// The table with only the least-numbered type of each set of identical types, as a library of its own. The types
    /// that remain keep their order and are numbered anew, each reference goes to the type that remains of the same
    /// set, and members are numbered anew too. All packages keep their numbers. A table that loads is not refused, and
    /// tidying a tidy one changes nothing.
    ///
    /// Every question but V has the same answer on the new table, with the types' numbers carried over
    /// ([`tidy_numbers`](Library::tidy_numbers), [`Question::carried`]) and a member carried to the one at the same
    /// place in its list, of which the places of the answer show the last.
    ///
    /// ```
    /// use yifgrun::{Answer, Library, Member, Question, Selection, Type};
    ///
    /// // int, *int, struct { Next *int }, the last two once more, type Node struct { Next *int }, struct { Node }
    /// let table = "typetable 1\nT basic 2\nT pointer 0\nT struct\nF Next - 1 0\nT pointer 0\nT struct\nF Next - 3 0\n\
    ///     T named 4\nT struct\nF Node - 5 1\n";
    /// let mut library = Library::new(table.replace(' ', "\t"))?;
    /// let mut tidied = library.tidy()?;
    /// let due = "typetable 1\nT basic 2\nT pointer 0\nT struct\nF Next - 1 0\nT named 2\nT struct\nF Node - 3 1\n";
    /// assert_eq!(tidied.table(), due.replace(' ', "\t").as_bytes());
    ///
    /// let numbers = library.tidy_numbers()?;
    /// assert_eq!(numbers, [0, 1, 2, 1, 2, 3, 4].map(Type));
    /// let question = Question::select(Type(6), false, None, "Next");
    /// let entry = |member| Selection::Entry { member: Member(member), indirect: false, way: vec![0, 0] };
    /// assert_eq!(library.ask(&question)?, Answer::Selection(entry(1)));
    /// assert_eq!(tidied.ask(&question.carried(&numbers))?, Answer::Selection(entry(0)));
    /// # Ok::<(), yifgrun::Refusal>(())
    /// ```
    pub fn tidy(&self) -> Result<Library, Refusal> {
        let mut answers = Answers::new();
        let table = answers.tidy(&self.table)?.to_vec();
        Library::new(table)
    }

    /// For each type of this table its number in the [tidied](Library::tidy) one.
    ///
    /// The archive does not tell them. They are found by the question I: again and again the least types that are not
    /// judged yet, one of each kind and size of lines, are held against all others of that kind and size, in one call.
    /// A type's number is how many types that have no lesser twin come before its least one. So a call is made for each
    /// set of identical types of the kind that has the most: for a table of 511 pointers, no two of them identical, 510
    /// calls, and a question for each two of them.
    pub fn tidy_numbers(&self) -> Result<Vec<Type>, Refusal> {
        twins::tidy_numbers(&self.table, &mut Answers::new())
    }

    /// The answer to a question in words, with the names of the table: lines that each end in a newline. The words
    /// are for a person and may change; a program asks by [`ask`](Library::ask).
    ///
    /// ```
    /// use yifgrun::{Library, Question, Type};
    ///
    /// // type Block struct { Len int }, struct { *Block }
    /// let table = "typetable 1\nT basic 2\nT struct\nF Len - 0 0\nT named 1\nT pointer 2\nT struct\nF Block - 3 1\n";
    /// let mut library = Library::new(table.replace(' ', "\t"))?;
    /// let words = library.explain(&Question::select(Type(4), false, None, "Len"))?;
    /// assert_eq!(words, ".Block.Len: a field, member 0, through a pointer\n");
    /// # Ok::<(), yifgrun::Refusal>(())
    /// ```
    pub fn explain(&mut self, question: &Question) -> Result<String, Refusal> {
        explain::explain(self, question)
    }
}

/// Puts a question behind others. No line has a newline within: for a name with one an empty line is asked, which has a
/// wrong form too.
fn push_line(lines: &mut String, question: &Question) {
    let begin = lines.len();
    write!(lines, "{question}").expect("a text takes a line");
    if lines[begin..].contains('\n') {
        lines.truncate(begin);
    }
    lines.push('\n');
}

/// An answer of the archive as a value. It is proved that answers have these forms.
fn read(answer: &[u8]) -> Answer {
    let text = str::from_utf8(answer).expect("an answer is ASCII");
    text.parse().expect("an answer has a form that is known")
}

/// An answer that another question has: the archive is not one of this library.
fn unlike(asked: &str, answer: &Answer) -> ! {
    panic!("the answer to {asked} is {answer:?}")
}
