//! What `typeask` prints, put together from calls, against what is stored.

use crate::due::{self, ordered::Order};
use crate::lent::asked;
use crate::one_call::refusal;
use crate::questions::given;
use crate::said::say;
use crate::stored::{base_calls, calls, cases};
use crate::typeask;
use std::collections::BTreeSet;
use yifgrun::work_words;

#[test]
fn typeask_prints_what_is_stored() {
    let cases = cases();
    let mut words = BTreeSet::new();
    for case in &cases {
        let printed = typeask::print(&case.input, asked);
        let (printed, due) = (printed.escape_ascii(), case.output.escape_ascii());
        assert_eq!(printed.to_string(), due.to_string(), "{}", case.name);
        words.extend(typeask::words(&case.output));
    }
    say(&format!("{} cases: {words:?}", cases.len()));
    let all = words.iter().eq(&typeask::WORDS);
    assert!(all, "not every answer and refusal");
}

/// Lines that `/` ends each, with blanks for tabs.
fn text(lines: &str) -> Vec<u8> {
    let text = lines.replace(' ', "\t").replace('/', "\n");
    text.into_bytes()
}

/// Paths that recur, members with and without a package, questions with one of the table, none, one that it lacks, and one of
/// wrong form.
#[test]
fn a_case_is_put_in_order_as_it_is_meant() {
    let input = text(
        "typetable 1/P b/P a/P b/T basic 2/T struct/F x 0 0 0/F x 1 0 0 tag/F Y - 0 0/\
        T tuple/T func 0 2 2/T named 1/M m 2 3 0/\
        Q/S 1 0 2 x/S 1 0 1 x/S 4 0 0 m/S 1 0 - Y/S 1 0 3 x/S 1 0 01 x/V",
    );
    let ordered = text(
        "typetable 1/P a/P b/T basic 2/T struct/F x 1 0 0/F x 0 0 0 tag/F Y - 0 0/\
        T tuple/T func 0 2 2/T named 1/M m 1 3 0/\
        Q/S 1 0 1 x/S 1 0 0 x/S 4 0 1 m/S 1 0 - Y/S 1 0 2 x/S 1 0 01 x/V",
    );
    let answers = "entry 0 0 0/entry 1 0 1/entry 3 0 0/entry 2 0 2/refused 11 0/refused 11 0/";
    let [output, due] =
        ["ok 3 5 4/", "ok 2 5 4/"].map(|counts| text(&format!("{answers}{counts}")));
    let order = Order::of(&input, &output).expect("it is out of order");
    assert_eq!(order.input(&input), ordered);
    assert_eq!(order.output(&output), due);
    assert_eq!(order.output(&text("refused 9 8/")), text("refused 9 7/"));
    assert_eq!(typeask::print(&ordered, asked), due);
    let known = |output| Order::of(&input, &text(output)).is_some();
    let (sixth, fourteenth) = (known("refused 6 5/"), known("refused 14 3/"));
    assert!(!sixth && !fourteenth && Order::of(&ordered, &due).is_none());
}

/// A stored call: table and question, the answer buffer's length, the number that comes back, the answer.
struct Call<'a> {
    table: Vec<u8>,
    question: Vec<u8>,
    room: usize,
    number: i64,
    answer: Vec<u8>,
    line: &'a str,
}

impl Call<'_> {
    fn of(line: &str) -> Call<'_> {
        let fields: Vec<&str> = line.split(' ').collect();
        let [table, question, room, number, answer] = fields[..] else {
            panic!("five fields: {line}");
        };
        Call {
            table: bytes(table),
            question: bytes(question),
            room: room.parse().expect("a length"),
            number: number.parse().expect("a number"),
            answer: bytes(answer),
            line,
        }
    }

    /// The call with what is due now, where that can be told: another refusal, or what is stored.
    fn due(self) -> Option<Self> {
        let printed = self.printed();
        let due = due::of_base(&self.table, &printed)?;
        Some(if due == printed {
            self
        } else {
            self.giving(due)
        })
    }

    /// The call put in order, if its packages are not. What 13 refuses stays so: V's count may be shorter by a digit, but the
    /// stored room that is too short for it is empty.
    fn ordered(&self) -> Option<Self> {
        let printed = self.printed();
        let order = Order::of(&self.table, &printed)?;
        let call = Call {
            table: order.input(&self.table),
            question: order.question(&self.question),
            answer: Vec::new(),
            ..*self
        };
        call.giving(order.output(&printed)).due()
    }

    /// The call with what comes back, as `typeask` prints it.
    fn giving(self, printed: Vec<u8>) -> Self {
        let (number, answer) = match printed.strip_prefix(b"refused\t") {
            Some(fields) => (returned(fields), Vec::new()),
            None => (printed.len() as i64, printed),
        };
        Call {
            number,
            answer,
            ..self
        }
    }

    /// What comes back, as `typeask` prints it.
    fn printed(&self) -> Vec<u8> {
        match u64::try_from(-self.number) {
            Ok(refused @ 1..) => {
                format!("refused\t{}\t{}\n", refused / 65_536, refused % 65_536).into_bytes()
            }
            _ => self.answer.clone(),
        }
    }

    fn run(&self) {
        let mut answer = vec![0; self.room];
        let result = asked(
            &self.table,
            &self.question,
            &mut answer,
            &mut vec![0; work_words()],
        );
        let returned = match result {
            Ok(length) => {
                assert_eq!(&answer[..length], self.answer, "{}", self.line);
                length as i64
            }
            Err(refusal) => -(i64::from(refusal.number()) * 65_536 + i64::from(refusal.line)),
        };
        assert_eq!(returned, self.number, "{}", self.line);
    }

    /// The question as the one line of a text: its refusal is what `typeask` prints for it, if there is room for that.
    fn run_as_text(&self) {
        if self.question.contains(&b'\n') {
            return;
        }
        let printed = self.printed();
        let due = match refusal(&printed) {
            Some((11 | 12, 0)) if printed.len() > self.room => Err((13, 0)),
            Some((11 | 12, 0)) | None => Ok(printed),
            Some(refused) => Err(refused),
        };
        let questions = [&self.question[..], b"\n"].concat();
        let result = given(&self.table, &questions, self.room);
        assert_eq!(result, due, "{}", self.line);
    }
}

/// The number that comes back for a refusal, of its number and line with a tab between.
fn returned(refusal: &[u8]) -> i64 {
    let fields = str::from_utf8(refusal).expect("text").trim_end();
    let numbers: Vec<i64> = fields.split('\t').flat_map(str::parse).collect();
    let [number, line] = numbers[..] else {
        panic!("a refusal: {fields}");
    };
    -(number * 65_536 + line)
}

/// The bytes that hexadecimal digits stand for; `-` for none.
pub fn bytes(digits: &str) -> Vec<u8> {
    if digits == "-" {
        return Vec::new();
    }
    let pair = |at| u8::from_str_radix(&digits[at..at + 2], 16).expect("two digits");
    (0..digits.len()).step_by(2).map(pair).collect()
}

#[test]
fn stored_calls_return_what_is_stored() {
    let (sample, base) = (calls(), base_calls().unwrap_or_default());
    let base: Vec<Call> = base.lines().map(Call::of).collect();
    let in_order: Vec<Call> = base.iter().filter_map(Call::ordered).collect();
    let (ordered, answered) = (in_order.len(), in_order.iter().filter(|c| c.number >= 0));
    say(&format!(
        "{ordered} calls put in order, {} of them answered",
        answered.count()
    ));
    let base = base.into_iter().filter_map(Call::due).chain(in_order);
    let calls: Vec<Call> = base.chain(sample.lines().map(Call::of)).collect();
    calls.iter().for_each(Call::run);
    calls.iter().for_each(Call::run_as_text);
    let answered = |by: &[u8]| {
        let given = |call: &&Call| call.answer.windows(by.len()).any(|w| w == by);
        calls.iter().filter(given).count()
    };
    let (both, listed) = (answered(b"\nand\t"), answered(b"\nsel\t"));
    let disordered = |call: &&Call| call.printed().starts_with(b"refused\t14\t");
    let disordered = calls.iter().filter(disordered).count();
    let count = calls.len();
    say(&format!(
        "{count} calls, {both} answered by two ways, {listed} by a set with methods, {disordered} refused by 14"
    ));
    assert!(both > 0, "no call is answered by two ways");
    assert!(listed > 0, "no call is answered by a set with methods");
    assert!(disordered > 0, "no call is refused by 14");
}
