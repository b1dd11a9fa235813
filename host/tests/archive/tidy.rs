//! The call that tidies a table: stored calls, tables worked out by hand, the buffers that it is lent, and what the library
//! gives as values.

use crate::bounds;
use crate::lent;
use crate::said::say;
use crate::stored::tidy_calls;
use crate::tidied::{carried, Due, Pair};
use crate::vectors::bytes;
use yifgrun::{work_words, Library, Question, Type};

/// What the call gives in a buffer of so many bytes: the tidied table, or the number and line of a refusal.
fn given(table: &[u8], room: usize) -> Result<Vec<u8>, (u8, u16)> {
    let (mut output, mut work) = (vec![0; room], vec![0; work_words()]);
    let length = lent::tidied(table, &mut output, &mut work).map_err(|r| (r.number(), r.line))?;
    output.truncate(length);
    Ok(output)
}

/// A stored call: the table, the buffer's length, and what is due.
pub struct Call {
    pub table: Vec<u8>,
    pub room: usize,
    pub due: Result<Vec<u8>, (u8, u16)>,
}

impl Call {
    fn of(line: &str) -> Call {
        let fields: Vec<&str> = line.split(' ').collect();
        let [table, room, number, output] = fields[..] else {
            panic!("four fields: {line}");
        };
        let output = bytes(output);
        let due = match number.parse::<i64>().expect("a number") {
            refused @ ..=-1 => Err(((-refused / 65_536) as u8, (-refused % 65_536) as u16)),
            length => {
                assert_eq!(output.len() as i64, length, "{line}");
                Ok(output)
            }
        };
        Call {
            table: bytes(table),
            room: room.parse().expect("a length"),
            due,
        }
    }

    /// What is due in another buffer, if that can be told.
    fn due_in(&self, room: usize) -> Option<Result<Vec<u8>, (u8, u16)>> {
        match &self.due {
            Ok(output) if output.len() > room => Some(Err((13, 0))),
            Err((13, _)) if room > self.room => None,
            due => Some(due.clone()),
        }
    }
}

pub fn stored() -> Vec<Call> {
    tidy_calls().lines().map(Call::of).collect()
}

/// Each in its own buffer, in one that is a byte shorter and one that is a byte longer than what is due, and in none.
#[test]
fn stored_calls_return_what_is_stored() {
    let calls = stored();
    let mut refused = [0; 15];
    for call in &calls {
        let length = call.due.as_ref().map_or(0, Vec::len);
        for room in [call.room, length, length.saturating_sub(1), length + 1, 0] {
            if let Some(due) = call.due_in(room) {
                let given = given(&call.table, room);
                assert!(given == due, "{room}: {}", call.table.escape_ascii());
            }
        }
        refused[call.due.as_ref().map_or_else(|r| r.0.into(), |_| 0)] += 1;
    }
    say(&format!(
        "{} tables tidied, refused by 0 to 14: {refused:?}",
        calls.len()
    ));
    let missing: Vec<usize> = (3..15).filter(|n| refused[*n] == 0).collect();
    assert_eq!(missing, [11, 12], "refusals that no call gives");
    assert!(refused[0] >= 20, "{refused:?}");
}

/// Lines parted by ` / `, with blanks for tabs, behind the first line.
fn text(lines: &str) -> String {
    let lines = lines.split(" / ").filter(|line| !line.is_empty());
    let lines: String = lines.map(|line| line.replace(' ', "\t") + "\n").collect();
    format!("typetable\t1\n{lines}")
}

/// Tables with what they become.
const BY_HAND: [(&str, &str, &str); 20] = [
    ("nothing", "", ""),
    ("packages that nothing refers to", "P a / P b", "P a / P b"),
    (
        "one package, and types that do not refer to it",
        "P a / T basic 2 / T basic 2",
        "P a / T basic 2",
    ),
    (
        "a package between others",
        "P a / P b / P c / T basic 2 / T struct / F x 0 0 0 / F x 2 0 0",
        "P a / P b / P c / T basic 2 / T struct / F x 0 0 0 / F x 2 0 0",
    ),
    (
        "byte is uint8 and rune is int32, and the first stays as it is written",
        "T basic 26 / T basic 5 / T basic 8 / T basic 27 / T slice 2 / T slice 3 / T slice 0",
        "T basic 26 / T basic 5 / T slice 0 / T slice 1",
    ),
    (
        "a named type is a set by itself, and what refers to two of them",
        "T basic 2 / T named 0 / T named 0 / T pointer 1 / T pointer 2 / T pointer 1",
        "T basic 2 / T named 0 / T named 0 / T pointer 1 / T pointer 2",
    ),
    (
        "a pointer over a pointer that goes, and a name ahead of it",
        "T named 4 / T basic 2 / T pointer 1 / T pointer 1 / T pointer 3 / T pointer 2",
        "T named 3 / T basic 2 / T pointer 1 / T pointer 2",
    ),
    (
        "every kind that has parts, twice",
        "T basic 2 / T basic 2 / T array 3 1 / T array 3 0 / T slice 1 / T slice 0 / T map 1 0 / T map 0 1 / \
         T chan 2 1 / T chan 2 0 / T tuple 0 1 / T tuple 1 0 / T func 0 10 11 / T func 0 11 10",
        "T basic 2 / T array 3 0 / T slice 0 / T map 0 0 / T chan 2 0 / T tuple 0 0 / T func 0 5 5",
    ),
    (
        "a length, a direction, a mark, a number of types",
        "T basic 2 / T array 3 0 / T array 30 0 / T chan 0 0 / T chan 1 0 / T chan 2 0 / T slice 0 / \
         T tuple / T tuple 0 / T tuple 0 0 / T tuple 6 / T func 0 10 7 / T func 1 10 7",
        "T basic 2 / T array 3 0 / T array 30 0 / T chan 0 0 / T chan 1 0 / T chan 2 0 / T slice 0 / \
         T tuple / T tuple 0 / T tuple 0 0 / T tuple 6 / T func 0 10 7 / T func 1 10 7",
    ),
    (
        "the order of a map's parts and of a tuple's",
        "T basic 2 / T basic 1 / T map 0 1 / T map 1 0 / T tuple 0 1 / T tuple 1 0",
        "T basic 2 / T basic 1 / T map 0 1 / T map 1 0 / T tuple 0 1 / T tuple 1 0",
    ),
    (
        "fields go with their struct, and members are numbered anew",
        "T basic 2 / T struct / F X - 0 0 / F Y - 0 0 / T struct / F X - 0 0 / F Y - 0 0 / T struct / F X - 2 1",
        "T basic 2 / T struct / F X - 0 0 / F Y - 0 0 / T struct / F X - 1 1",
    ),
    (
        "tags, embedded fields, names and their order",
        "T basic 2 / T struct / F X - 0 0 / T struct / F X - 0 0 t / T struct / F X - 0 1 / T struct / F Y - 0 0 / \
         T struct / F X - 0 0 t / T struct / F X - 0 0 / F Y - 0 0 / T struct / F Y - 0 0 / F X - 0 0",
        "T basic 2 / T struct / F X - 0 0 / T struct / F X - 0 0 t / T struct / F X - 0 1 / T struct / F Y - 0 0 / \
         T struct / F X - 0 0 / F Y - 0 0 / T struct / F Y - 0 0 / F X - 0 0",
    ),
    (
        "a tag that looks like lines of types",
        "T basic 2 / T basic 2 / T struct / F X - 1 0 1 / T struct / F X - 0 0 1",
        "T basic 2 / T struct / F X - 0 0 1",
    ),
    (
        "an exported name has no package, and the package of the first stays",
        "P a / P b / T basic 2 / T struct / F X 1 0 0 / T struct / F X 0 0 0 / T struct / F x 0 0 0 / T struct / F x 1 0 0 / \
         T struct / F x - 0 0 / T struct / F x 1 0 0 / T struct / F _ 0 0 0 / T struct / F _ 1 0 0",
        "P a / P b / T basic 2 / T struct / F X 1 0 0 / T struct / F x 0 0 0 / T struct / F x 1 0 0 / \
         T struct / F x - 0 0 / T struct / F _ 0 0 0 / T struct / F _ 1 0 0",
    ),
    (
        "two interfaces that lead to themselves, and no two lines alike",
        "T iface / M X - 4 0 / T iface / M X - 5 0 / T tuple 0 / T tuple 1 / T func 0 2 2 / T func 0 3 3",
        "T iface / M X - 2 0 / T tuple 0 / T func 0 1 1",
    ),
    (
        "a ring of three is one interface",
        "T iface / M X - 7 0 / T iface / M X - 8 0 / T iface / M X - 6 0 / T tuple 0 / T tuple 1 / T tuple 2 / \
         T func 0 3 3 / T func 0 4 4 / T func 0 5 5",
        "T iface / M X - 2 0 / T tuple 0 / T func 0 1 1",
    ),
    (
        "a ring of three with a name in it",
        "T named 9 / T iface / M X - 7 0 / T iface / M X - 8 0 / T tuple 0 / T tuple 1 / T tuple 2 / T func 0 5 5 / \
         T func 0 3 3 / T func 0 4 4 / T iface / M X - 8 0",
        "T named 2 / T iface / M X - 7 0 / T iface / M X - 8 0 / T tuple 0 / T tuple 1 / T tuple 2 / T func 0 5 5 / T func 0 3 3 / \
         T func 0 4 4",
    ),
    (
        "the least twin of an interface comes behind what refers to it",
        "T pointer 1 / T iface / T pointer 3 / T iface",
        "T pointer 1 / T iface",
    ),
    (
        "methods of names over one twin, each with its own",
        "T tuple / T func 0 0 0 / T tuple / T func 0 2 2 / T struct / T named 4 / M X - 3 0 / T struct / T named 6 / M X - 1 1",
        "T tuple / T func 0 0 0 / T struct / T named 2 / M X - 1 0 / T named 2 / M X - 1 1",
    ),
    (
        "a struct that leads to itself by a name",
        "T named 2 / T pointer 0 / T struct / F Next - 1 0 / T pointer 0 / T struct / F Next - 3 0 / T named 4",
        "T named 2 / T pointer 0 / T struct / F Next - 1 0 / T named 2",
    ),
];

#[test]
fn tables_worked_out_by_hand() {
    for (what, before, behind) in BY_HAND {
        let [before, behind] = [before, behind].map(text);
        let given = given(before.as_bytes(), before.len());
        let given = given.map(|output| String::from_utf8(output).expect("text"));
        assert_eq!(given, Ok(behind.clone()), "{what}");
        let again = Library::new(behind.clone()).expect(what).tidy();
        assert_eq!(again.expect(what).table(), behind.as_bytes(), "{what}");
    }
}

/// Lines of up to 512 types lose up to two digits of a number; the first that remain are as many as there are kinds.
#[test]
fn many_twins() {
    let kinds = [
        "slice\t1",
        "pointer\t0",
        "map\t0\t1",
        "chan\t0\t0",
        "array\t7\t1",
    ];
    let lines: String = (0..500).map(|n| format!("T\t{}\n", kinds[n % 5])).collect();
    let last: String = (0..5).map(|n| format!("T\tslice\t{}\n", 497 + n)).collect();
    let table = format!("typetable\t1\nT\tbasic\t2\nT\tbasic\t2\n{lines}{last}");
    let kept = "T\tslice\t0\nT\tpointer\t0\nT\tmap\t0\t0\nT\tchan\t0\t0\nT\tarray\t7\t0\n";
    let over: String = (1..6).map(|n| format!("T\tslice\t{n}\n")).collect();
    let due = format!("typetable\t1\nT\tbasic\t2\n{kept}{over}");
    assert_eq!(given(table.as_bytes(), due.len()), Ok(due.into_bytes()));
}

/// Two towers of structs, each with two fields of the one below it, as high as there are types for: one is left.
#[test]
fn two_towers() {
    let height = (bounds::TYPES - 1) / 2;
    let tower = |first: usize| -> String {
        let below = |n: usize| if n == 0 { 0 } else { first + n - 1 };
        let fields = |below| format!("T\tstruct\nF\tA\t-\t{below}\t0\nF\tB\t-\t{below}\t0\n");
        (0..height).map(|n| fields(below(n))).collect()
    };
    let due = format!("typetable\t1\nT\tbasic\t2\n{}", tower(1));
    let table = format!("{due}{}", tower(height + 1));
    assert!(given(table.as_bytes(), table.len()) == Ok(due.into_bytes()));
}

/// Interfaces each of whose two methods takes one of 40 tuples of 60 interfaces: nothing tells them apart, and one is left.
#[test]
fn interfaces_that_take_one_another() {
    const TUPLES: usize = 40;
    let ifaces = bounds::TYPES - 2 * TUPLES - 1;
    let first = ifaces + 1;
    let method = |name, n: usize| format!("M\t{name}\t-\t{}\t0\n", first + TUPLES + n % TUPLES);
    let iface = |n: usize| format!("T\tiface\n{}{}", method("A", n), method("B", 3 * n + 1));
    let entry = |n: usize| format!("\t{}", n * n % ifaces);
    let tuple = |n: usize| (0..60).map(|k| entry(7 * n + k)).collect::<String>();
    let mut table = "typetable\t1\n".to_owned();
    table.extend((0..ifaces).map(iface));
    table += "T\ttuple\n";
    table.extend((0..TUPLES).map(|n| format!("T\ttuple{}\n", tuple(n))));
    table.extend((0..TUPLES).map(|n| format!("T\tfunc\t0\t{}\t{ifaces}\n", first + n)));
    let one = "\t0".repeat(60);
    let due = format!(
        "{}T\ttuple{one}\nT\tfunc\t0\t2\t1\n",
        text("T iface / M A - 3 0 / M B - 3 0 / T tuple")
    );
    let given = given(table.as_bytes(), table.len());
    assert_eq!(
        given.map(|output| String::from_utf8(output).expect("text")),
        Ok(due)
    );
}

const TABLE: &str = "P a / T basic 26 / T basic 8 / T tuple 1 / T func 0 2 2 / T tuple 0 / T func 0 4 4 / \
    T iface / M Read 0 5 0 / T iface / M Read - 3 0 / T struct / F x 0 7 1 tag / T struct / F x 0 6 1 tag";

const TIDIED: &str =
    "P a / T basic 26 / T tuple 0 / T func 0 1 1 / T iface / M Read 0 2 0 / T struct / F x 0 3 1 tag";

#[test]
fn buffers_of_every_length() {
    let [table, due] = [TABLE, TIDIED].map(text);
    for room in 0..=table.len() + 1 {
        let due = match room < due.len() {
            true => Err((13, 0)),
            false => Ok(due.clone().into_bytes()),
        };
        assert_eq!(given(table.as_bytes(), room), due, "{room}");
    }
}

/// A refusal of the table comes before that of the room.
#[test]
fn refusals_come_before_the_rooms() {
    let damaged = text(&TABLE.replace("F x", "F 1x"));
    let disordered = text(&TABLE.replace("P a", "P b / P a"));
    let lacking = text(&TABLE.replace("F x 0 6", "F x 0 10"));
    for (table, due) in [
        (&*damaged, (4, 14)),
        (&disordered, (14, 3)),
        (&lacking, (7, 16)),
        ("", (3, 1)),
        (&"x".repeat(bounds::TEXT + 1), (2, 0)),
    ] {
        for room in [0, 1, 40, table.len() + 1] {
            assert_eq!(given(table.as_bytes(), room), Err(due), "{room}");
        }
    }
}

/// Every word of a work area is 0 behind a call, however long it is; refusal 1 comes first for every shorter one.
#[test]
fn work_areas_of_many_lengths() {
    let [table, due] = [TABLE, TIDIED].map(text);
    let mut output = vec![0; table.len()];
    for words in (work_words()..work_words() + 70).chain([5_000, 65_536]) {
        let result = lent::tidied(table.as_bytes(), &mut output, &mut vec![0; words]);
        assert_eq!(&output[..result.expect("it is tidied")], due.as_bytes());
    }
    let mut work = vec![0; work_words()];
    for words in 0..work_words() {
        for (table, room) in [(&*table, table.len()), (&table, 0), ("x", 9), ("", 0)] {
            let (output, work) = (&mut output[..room], &mut work[..words]);
            let result = lent::tidied(table.as_bytes(), output, work);
            assert_eq!(result.map_err(|r| (r.number(), r.line)), Err((1, 0)));
        }
    }
}

/// The texts that are stored and load, and those by hand.
fn texts() -> Vec<String> {
    let stored = stored().into_iter().filter(|call| call.due.is_ok());
    let stored = stored.map(|call| String::from_utf8(call.table).expect("text"));
    stored
        .chain(BY_HAND.map(|(_, table, _)| text(table)))
        .collect()
}

/// Every question M and C, and I on each two types.
fn questions(types: usize) -> Vec<String> {
    let one = (0..types).flat_map(|t| [format!("M\t{t}"), format!("C\t{t}")]);
    let two = (0..types).flat_map(|x| (0..types).map(move |y| format!("I\t{x}\t{y}")));
    one.chain(two).collect()
}

/// The library as values: the table that is due, the numbers that are, the questions carried by them, and their answers.
#[test]
fn the_library_gives_what_is_due() {
    let mut compared = 0;
    for table in texts() {
        let library = Library::new(table.clone()).expect("it loads");
        let (tidied, due) = (library.tidy().expect("it is tidied"), Due::of(&table));
        assert_eq!(tidied.table(), due.text.as_bytes());
        let numbers = library.tidy_numbers().expect("it loads");
        assert!(numbers
            .iter()
            .map(|&t| usize::from(t))
            .eq(due.numbers.iter().copied()));
        let questions = questions(due.numbers.len());
        for question in &questions {
            let value: Question = question.parse().expect("a question");
            let value = value.carried(&numbers).to_string();
            assert_eq!(value, carried(question, &due.numbers));
        }
        Pair::new(&table, &due.text, &due.numbers).hold(&questions);
        compared += questions.len();
    }
    say(&format!(
        "{compared} questions on stored tables and on tidied ones"
    ));
    assert!(compared >= 5_000, "{compared}");
}

#[test]
fn every_question_is_carried() {
    let numbers = [3, 1, 0].map(Type);
    for (question, due) in [
        ("S\t2\t1\t0\tX", "S\t0\t1\t0\tX"),
        ("S\t1\t0\t-\tX", "S\t1\t0\t-\tX"),
        ("M\t0", "M\t3"),
        ("N\t0\t2\t1", "N\t3\t0\t1"),
        ("N\t2\t0\t0", "N\t0\t3\t0"),
        ("I\t0\t1", "I\t3\t1"),
        ("C\t2", "C\t0"),
        ("C\t3", "C\t3"),
        ("V", "V"),
    ] {
        let question: Question = question.parse().expect("a question");
        assert_eq!(question.carried(&numbers).to_string(), due);
    }
}
