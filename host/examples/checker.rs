//! A checker that has its types as values: it makes a table by calls, keeps what each member is to it, and resolves
//! all selectors of a file in one call.
//!
//! The Go code:
//!
//! ```go
//! package cat
//! type Block struct{ Len int; next *Block }
//! func (b *Block) Close() {}
//! type Log struct{ Len int }
//! type Shelf struct{ *Block; Log; Name string }
//! type Closer interface{ Close() }
//! ```

use std::collections::HashMap;
use yifgrun::{Answer, Basic, Library, Member, Package, Question, Receiver};
use yifgrun::{Refusal, Satisfaction, Selection, Table, TableBuilder, Type};

/// The types that questions are about, and what each member is to the checker: here, words.
struct Checked {
    package: Option<Package>,
    shelf: Type,
    closer: Type,
    members: HashMap<Member, &'static str>,
    table: Table,
}

fn main() -> Result<(), Refusal> {
    let checked = checked();
    let mut library = Library::new(&checked.table)?;
    let names = ["Name", "Close", "Len", "next", "Open"];
    let questions = names.map(|name| Question::select(checked.shelf, false, checked.package, name));
    for (name, answer) in names.iter().zip(library.ask_all(&questions)) {
        println!("Shelf{{}}.{name}: {}", checked.said(&answer?));
    }
    let satisfied = library.missing(checked.shelf, checked.closer, true)?;
    println!(
        "Shelf is a Closer: {}",
        satisfied == Satisfaction::Satisfied
    );
    Ok(())
}

impl Checked {
    fn said(&self, answer: &Answer) -> String {
        match answer {
            Answer::Selection(Selection::Entry { member, .. }) => self.members[member].to_owned(),
            Answer::Selection(Selection::Ambiguous { first, second }) => {
                format!("ambiguous, by the places {first:?} and {second:?}")
            }
            Answer::Selection(Selection::NotFound) => "not found".to_owned(),
            other => format!("{other:?}"),
        }
    }
}

/// Puts the types of the Go code into a table.
fn checked() -> Checked {
    let mut table = TableBuilder::new(&["office/cat"]);
    let package = Some(table.package("office/cat"));
    let (int, string) = (table.basic(Basic::Int), table.basic(Basic::String));
    let close = table.func(&[], &[]);

    let block = table.named();
    let to_block = table.pointer(block);
    let fields = table.structure();
    let block_len = table.field(fields, "Len", package, int);
    let next = table.field(fields, "next", package, to_block);
    table.underlying(block, fields);
    let block_close = table.method(block, "Close", package, close, Receiver::Pointer);

    let log = table.named();
    let fields = table.structure();
    table.field(fields, "Len", package, int);
    table.underlying(log, fields);

    let shelf = table.named();
    let fields = table.structure();
    table.embedded(fields, "Block", package, to_block);
    table.embedded(fields, "Log", package, log);
    let name = table.field(fields, "Name", package, string);
    table.underlying(shelf, fields);

    let closer = table.interface();
    table.method(closer, "Close", package, close, Receiver::Value);

    let table = table.finish();
    let known = [
        (block_len, "the field Len of Block"),
        (next, "the field next of Block"),
        (block_close, "the method Close of *Block"),
        (name, "the field Name of Shelf"),
    ];
    Checked {
        package,
        shelf,
        closer,
        members: known
            .map(|(added, words)| (table.member(added), words))
            .into(),
        table,
    }
}
