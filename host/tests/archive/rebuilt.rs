//! `TableBuilder`: every stored table that loads is made again by calls, and answers every stored question as before,
//! with the numbers that the builder gave.

use crate::said::say;
use crate::stored::cases;
use crate::typeask;
use std::collections::HashMap;
use yifgrun::{Added, Answer, Basic, Direction, Library, Member, Method, Package, Question};
use yifgrun::{Receiver, RefusalKind, Satisfaction, Selection, Table, TableBuilder, Type};

/// The basic types, in the order of their numbers.
const BASICS: [Basic; 28] = [
    Basic::Invalid,
    Basic::Bool,
    Basic::Int,
    Basic::Int8,
    Basic::Int16,
    Basic::Int32,
    Basic::Int64,
    Basic::Uint,
    Basic::Uint8,
    Basic::Uint16,
    Basic::Uint32,
    Basic::Uint64,
    Basic::Uintptr,
    Basic::Float32,
    Basic::Float64,
    Basic::Complex64,
    Basic::Complex128,
    Basic::String,
    Basic::UnsafePointer,
    Basic::UntypedBool,
    Basic::UntypedInt,
    Basic::UntypedRune,
    Basic::UntypedFloat,
    Basic::UntypedComplex,
    Basic::UntypedString,
    Basic::UntypedNil,
    Basic::Byte,
    Basic::Rune,
];

const DIRECTIONS: [Direction; 3] = [Direction::Both, Direction::Send, Direction::Receive];

/// A T line with the lines of its members, by their fields.
struct Stored<'a> {
    fields: Vec<&'a str>,
    members: Vec<Vec<&'a str>>,
}

/// The paths and the types of a table that loads.
fn read(table: &str) -> (Vec<&str>, Vec<Stored<'_>>) {
    let (mut paths, mut types) = (Vec::new(), Vec::<Stored>::new());
    for line in table.lines().skip(1) {
        let fields: Vec<&str> = line.split('\t').collect();
        match fields[0] {
            "P" => paths.push(fields[1]),
            "T" => types.push(Stored {
                fields: fields[1..].to_vec(),
                members: Vec::new(),
            }),
            _ => types.last_mut().expect("a type").members.push(fields),
        }
    }
    (paths, types)
}

fn number(field: &str) -> usize {
    field.parse().expect("a number")
}

/// A table being made again: the builder, and the numbers that it gave.
struct Again<'a> {
    builder: TableBuilder,
    types: &'a [Stored<'a>],
    /// By the numbers of the stored table; a tuple has none.
    given: Vec<Option<Type>>,
    members: Vec<Added>,
}

impl<'a> Again<'a> {
    fn of(paths: &[&str], types: &'a [Stored<'a>]) -> Again<'a> {
        Again {
            builder: TableBuilder::new(paths),
            types,
            given: vec![None; types.len()],
            members: Vec::new(),
        }
    }

    fn given(&self, field: &str) -> Type {
        self.given[number(field)].expect("a type that was added before")
    }

    fn elements(&self, tuple: &str) -> Vec<Type> {
        let elements = &self.types[number(tuple)].fields[1..];
        elements.iter().map(|e| self.given(e)).collect()
    }

    /// The types that others may lead back to, then all others in their order.
    fn add_types(&mut self) {
        for (t, stored) in self.types.iter().enumerate() {
            self.given[t] = match stored.fields[0] {
                "named" => Some(self.builder.named()),
                "iface" => Some(self.builder.interface()),
                _ => None,
            };
        }
        for t in 0..self.types.len() {
            if self.given[t].is_none() {
                self.given[t] = self.add(t);
            }
        }
    }

    fn add(&mut self, t: usize) -> Option<Type> {
        let field = |n: usize| self.types[t].fields[n];
        Some(match field(0) {
            "basic" => self.builder.basic(BASICS[number(field(1))]),
            "array" => {
                let (length, element) = (number(field(1)), self.given(field(2)));
                self.builder.array(length as u32, element)
            }
            "slice" => self.builder.slice(self.given(field(1))),
            "pointer" => self.builder.pointer(self.given(field(1))),
            "map" => {
                let (key, element) = (self.given(field(1)), self.given(field(2)));
                self.builder.map(key, element)
            }
            "chan" => {
                let element = self.given(field(2));
                self.builder.chan(DIRECTIONS[number(field(1))], element)
            }
            "func" => {
                let (parameters, results) = (self.elements(field(2)), self.elements(field(3)));
                match field(1) {
                    "1" => self.builder.variadic_func(&parameters, &results),
                    _ => self.builder.func(&parameters, &results),
                }
            }
            "struct" => self.add_struct(t),
            _ => return None,
        })
    }

    /// A struct with its fields, which refer to types before it.
    fn add_struct(&mut self, t: usize) -> Type {
        let structure = self.builder.structure();
        for line in &self.types[t].members {
            self.add_field(structure, line);
        }
        structure
    }

    fn add_field(&mut self, structure: Type, line: &[&str]) {
        let (package, of) = (package(line[2]), self.given(line[3]));
        let field = match line[4] {
            "1" => self.builder.embedded(structure, line[1], package, of),
            _ => self.builder.field(structure, line[1], package, of),
        };
        if let Some(tag) = line.get(5) {
            self.builder.tag(field, tag);
        }
        self.members.push(field);
    }

    /// What named types stand for, and all methods: they refer to any type. Members come as they are stored.
    fn add_methods(&mut self) {
        let mut fields = std::mem::take(&mut self.members).into_iter();
        for (t, stored) in self.types.iter().enumerate() {
            let of = self.given[t];
            if stored.fields[0] == "named" {
                let underlying = self.given(stored.fields[1]);
                self.builder.underlying(of.expect("a type"), underlying);
            }
            for line in &stored.members {
                let added = match line[0] {
                    "F" => fields.next().expect("as many fields"),
                    _ => self.add_method(of.expect("a type"), line),
                };
                self.members.push(added);
            }
        }
    }

    fn add_method(&mut self, of: Type, line: &[&str]) -> Added {
        let receiver = match line[4] {
            "1" => Receiver::Pointer,
            _ => Receiver::Value,
        };
        let signature = self.given(line[3]);
        self.builder
            .method(of, line[1], package(line[2]), signature, receiver)
    }
}

fn package(field: &str) -> Option<Package> {
    (field != "-").then(|| Package(number(field) as u16))
}

/// A table made again, with its types and members by their stored numbers.
struct Rebuilt {
    table: Table,
    types: Vec<Option<Type>>,
    members: HashMap<Member, Member>,
}

fn rebuilt(table: &str) -> Rebuilt {
    let (paths, types) = read(table);
    let mut again = Again::of(&paths, &types);
    again.add_types();
    again.add_methods();
    let table = again.builder.finish();
    let numbers = again.members.iter().map(|&added| table.member(added));
    let members = (0..).map(Member).zip(numbers).collect();
    Rebuilt {
        table,
        types: again.given,
        members,
    }
}

impl Rebuilt {
    /// A question with the new numbers; nothing where it is about a tuple, or is V, whose counts differ.
    fn question(&self, question: &Question) -> Option<Question> {
        let t = |t: &Type| self.types[usize::from(t.0)];
        let mut carried = question.clone();
        match &mut carried {
            Question::Select { receiver, .. } => *receiver = t(receiver)?,
            Question::MethodSet { of } | Question::Comparable { of } => *of = t(of)?,
            Question::Missing { of, interface, .. } => {
                (*of, *interface) = (t(of)?, t(interface)?);
            }
            Question::Identical { left, right } => (*left, *right) = (t(left)?, t(right)?),
            _ => return None,
        }
        Some(carried)
    }

    /// An answer with the new numbers.
    fn answer(&self, answer: &Answer) -> Answer {
        let mut carried = answer.clone();
        match &mut carried {
            Answer::Selection(Selection::Entry { member, .. })
            | Answer::Satisfaction(Satisfaction::Missing { method: member, .. }) => {
                *member = self.members[member];
            }
            Answer::MethodSet(methods) => {
                let carry = |method: &mut Method| method.member = self.members[&method.member];
                methods.iter_mut().for_each(carry);
            }
            _ => {}
        }
        carried
    }
}

/// A stored table and the same made by calls.
struct Pair {
    stored: Library,
    made: Library,
    again: Rebuilt,
}

impl Pair {
    fn of(table: &[u8]) -> Option<Pair> {
        let stored = Library::new(table).ok()?;
        let again = rebuilt(str::from_utf8(table).expect("it loads"));
        let text = again.table.text();
        let made = Library::new(text).unwrap_or_else(|refusal| panic!("{refusal}\n{text}"));
        Some(Pair {
            stored,
            made,
            again,
        })
    }

    /// Asks both a question, if it can be carried and is answered.
    fn hold(&mut self, line: &[u8]) -> Option<()> {
        let question: Question = str::from_utf8(line).ok()?.parse().ok()?;
        let answer = self.stored.ask(&question).ok()?;
        let carried = self.again.question(&question)?;
        let due = Ok(self.again.answer(&answer));
        assert_eq!(self.made.ask(&carried), due, "{question}");
        Some(())
    }
}

#[test]
fn stored_tables_are_made_by_calls() {
    let (mut tables, mut questions) = (0, 0);
    for case in cases() {
        let (table, lines) = typeask::parted(&case.input);
        if let Some(mut pair) = Pair::of(table) {
            tables += 1;
            questions += lines.iter().filter_map(|line| pair.hold(line)).count();
        }
    }
    say(&format!(
        "{tables} tables made by calls, {questions} questions"
    ));
    assert!(tables > 40 && questions > 700);
}

/// Which refusal a table gets that was made by calls.
fn refused(make: impl FnOnce(&mut TableBuilder)) -> Option<(RefusalKind, u16)> {
    let mut table = TableBuilder::new(&["a"]);
    make(&mut table);
    let refusal = Library::new(table.finish().text()).err()?;
    Some((refusal.kind, refusal.line))
}

/// Whatever texts are given, a table has the lines that the calls say, or is refused.
#[test]
fn texts_of_other_bytes_are_refused() {
    let field = |name: &'static str| {
        move |table: &mut TableBuilder| {
            let int = table.basic(Basic::Int);
            let structure = table.structure();
            table.field(structure, name, None, int);
        }
    };
    assert_eq!(refused(field("x")), None);
    for name in ["", "2", "x\t-\t0\t0", "x\nT\tstruct", "\n", "é", "x y"] {
        let due = Some((RefusalKind::Form, 5));
        assert_eq!(refused(field(name)), due, "{name:?}");
    }
    let path = |path: &str| Library::new(TableBuilder::new(&[path]).finish().text()).err();
    assert!(path("a/b").is_none());
    for wrong in ["", "_", "a\nT\tstruct", "a\tb", "a b"] {
        let refusal = path(wrong).expect(wrong);
        assert_eq!((refusal.kind, refusal.line), (RefusalKind::Form, 2));
    }
    let tag = |tag: &'static str| {
        move |table: &mut TableBuilder| {
            let structure = table.structure();
            let field = table.field(structure, "x", None, Type(0));
            table.tag(field, tag);
        }
    };
    for wrong in ["a\nb", "a\tb", "\u{e9}"] {
        assert_eq!(
            refused(tag(wrong)),
            Some((RefusalKind::Form, 4)),
            "{wrong:?}"
        );
    }
}

/// What a table may not have is refused when it is loaded, at the line of it.
#[test]
fn tables_that_may_not_be_are_refused() {
    let no_underlying = refused(|table| {
        table.named();
    });
    assert_eq!(no_underlying, Some((RefusalKind::Form, 3)));
    let method_of_pointer = refused(|table| {
        let int = table.basic(Basic::Int);
        let pointer = table.pointer(int);
        let signature = table.func(&[], &[]);
        table.method(pointer, "Close", None, signature, Receiver::Value);
    });
    assert_eq!(method_of_pointer, Some((RefusalKind::Place, 5)));
    let repeated = refused(|table| {
        let interface = table.interface();
        let signature = table.func(&[], &[]);
        table.method(interface, "Close", None, signature, Receiver::Value);
        table.method(interface, "Close", None, signature, Receiver::Value);
    });
    assert_eq!(repeated, Some((RefusalKind::Clash, 5)));
    let many = refused(|table| {
        (0..600).for_each(|n| {
            table.array(n, Type(0));
        });
    });
    assert_eq!(many, Some((RefusalKind::TooMany, 515)));
}

/// A refusal's line is found in the text, an empty tag is none, and a package that was not named is no package.
#[test]
fn a_table_shows_its_lines_and_members() {
    let mut table = TableBuilder::new(&["a"]);
    let int = table.basic(Basic::Int);
    let structure = table.structure();
    let x = table.field(structure, "x", Some(table.package("a")), int);
    table.tag(x, "");
    let pointer = table.pointer(structure);
    let y = table.embedded(structure, "y", None, pointer);
    let before = table.clone().finish();
    let table = table.finish();
    assert_eq!(before.text(), table.text());
    let refusal = Library::new(&table).unwrap_err();
    assert_eq!(refusal.kind, RefusalKind::Kind);
    assert_eq!(table.line(refusal.line), Some("F\ty\t-\t2\t1"));
    assert_eq!((table.line(0), table.line(8)), (None, None));
    for added in [x, y] {
        assert_eq!(table.added(table.member(added)), Some(added));
    }
    assert_eq!(table.added(Member(2)), None);
    let words = format!("{refusal:?}");
    assert!(words.contains("it comes later in the table"), "{words}");
}

#[test]
#[should_panic(expected = "no package b was named at first")]
fn a_package_that_was_not_named() {
    TableBuilder::new(&["a"]).package("b");
}

/// The methods of an interface come in any order, and stand in that of their ids.
#[test]
fn methods_of_an_interface_are_put_in_order() {
    let mut table = TableBuilder::new(&["b", "a"]);
    let (a, b) = (Some(table.package("a")), Some(table.package("b")));
    assert_eq!((a, b), (Some(Package(0)), Some(Package(1))));
    let signature = table.func(&[], &[]);
    let interface = table.interface();
    let names = [("x", b), ("x", a), ("Z", b), ("y", None), ("A", None)];
    let added = names
        .map(|(name, package)| table.method(interface, name, package, signature, Receiver::Value));
    let table = table.finish();
    let members = added.map(|added| table.member(added));
    assert_eq!(members, [4, 3, 1, 2, 0].map(Member));
    let mut library = Library::new(table.text()).expect("it loads");
    let x = library.select(interface, false, b, "x").expect("an answer");
    let entry = Selection::Entry {
        member: Member(4),
        indirect: false,
        way: vec![4],
    };
    assert_eq!(x, entry);
}
