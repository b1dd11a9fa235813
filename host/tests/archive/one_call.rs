//! All questions of a stored input in one call: what `typeask` prints for it, but for answers that it has no room for.

use crate::bounds;
use crate::questions::given;
use crate::said::say;
use crate::stored::{cases, Case};
use crate::typeask;
use yifgrun::{each_answer, Answers};

/// The number and line of a refusal, as it is printed.
pub fn refusal(line: &[u8]) -> Option<(u8, u16)> {
    let fields = str::from_utf8(line.strip_prefix(b"refused\t")?).ok()?;
    let (number, line) = fields.strip_suffix('\n')?.split_once('\t')?;
    Some((number.parse().ok()?, line.parse().ok()?))
}

/// What was printed, answer by answer.
fn answers(printed: &[u8]) -> Vec<Vec<u8>> {
    let mut all: Vec<Vec<u8>> = Vec::new();
    for line in printed.split_inclusive(|&b| b == b'\n') {
        match (&line[..line.len().min(4)], all.last_mut()) {
            (b"sel\t" | b"and\t", Some(last)) => last.extend(line),
            _ => all.push(line.to_vec()),
        }
    }
    all
}

/// What is due for a case, answer by answer, or the refusal of its table. Where `typeask` has no room for an answer, it is
/// the one that a call for its question alone gives in a longer buffer.
fn due(case: &Case) -> Result<Vec<Vec<u8>>, (u8, u16)> {
    let (table, questions) = typeask::parted(&case.input);
    let mut due = answers(&case.output);
    let first = due.first().and_then(|line| refusal(line));
    first
        .filter(|(n, _)| !(11..=13).contains(n))
        .map_or(Ok(()), Err)?;
    assert_eq!(due.len(), questions.len(), "{}", case.name);
    for (answer, question) in due.iter_mut().zip(questions) {
        if refusal(answer) == Some((13, 0)) {
            let whole = Answers::new().ask(table, question).map(<[u8]>::to_vec);
            *answer = whole.expect("there is room");
            assert!(answer.len() > bounds::ANSWER, "{}", case.name);
        }
    }
    Ok(due)
}

/// What was run.
#[derive(Default)]
struct Run {
    answered: usize,
    refused: usize,
    questions: usize,
    /// Answers that `typeask` has no room for.
    long: usize,
}

impl Run {
    fn case(&mut self, case: &Case) {
        match due(case) {
            Ok(each) => self.answered(case, &each),
            Err(due) => {
                let (table, questions) = typeask::texts(&case.input);
                let result = given(table, questions, case.output.len());
                assert_eq!(result, Err(due), "{}", case.name);
                self.refused += 1;
            }
        }
    }

    /// In a buffer of just their length the answers are given, and in one that is a byte shorter none.
    fn answered(&mut self, case: &Case, each: &[Vec<u8>]) {
        let ((table, questions), due) = (typeask::texts(&case.input), each.concat());
        let all = given(table, questions, due.len()).expect("there is room");
        let (shown, due) = (all.escape_ascii(), due.escape_ascii());
        assert_eq!(shown.to_string(), due.to_string(), "{}", case.name);
        let parted = each_answer(&all).zip(each).all(|(given, due)| match given {
            Ok(answer) => answer == due,
            Err(refused) => refusal(due) == Some((refused.number(), refused.line)),
        });
        assert!(parted && each_answer(&all).count() == each.len());
        if let Some(less) = all.len().checked_sub(1) {
            assert_eq!(given(table, questions, less), Err((13, 0)), "{}", case.name);
        }
        self.answered += 1;
        self.questions += each.len();
        self.long += each.iter().filter(|a| a.len() > bounds::ANSWER).count();
    }
}

/// A longer input than `typeask` reads is refused by it, whatever its table is: no question of it is asked here.
#[test]
fn one_call_gives_what_typeask_prints() {
    let mut run = Run::default();
    let cases = cases();
    let read = cases.iter().filter(|case| case.input.len() <= bounds::TEXT);
    read.for_each(|case| run.case(case));
    let Run {
        answered,
        refused,
        questions,
        long,
    } = run;
    say(&format!(
        "in one call each: {answered} inputs with {questions} questions, of which {long} have an answer that typeask has \
        no room for; {refused} refused tables"
    ));
    assert!(questions > 0 && long > 0 && refused > 0);
}
