//! A table as a text, asked one question after the other.
//!
//! The Go code:
//!
//! ```go
//! package cat
//! type Block struct{ Len int }
//! func (b *Block) Close() {}
//! type Shelf struct{ *Block }
//! ```

use yifgrun::{Library, Package, Refusal, Selection, Type};

const TABLE: &str = "\
typetable 1
P office/cat
T basic 2
T tuple
T func 0 1 1
T struct
F Len 0 0 0
T named 3
M Close 0 2 1
T pointer 4
T struct
F Block 0 5 1
T named 6
";

/// The numbers of `Block` and `Shelf` in the table.
const BLOCK: Type = Type(4);
const SHELF: Type = Type(7);

fn main() -> Result<(), Refusal> {
    // Fields are parted by tabs; blanks are for the reader of this file.
    let mut library = Library::new(TABLE.replace(' ', "\t"))?;
    for (receiver, of, name) in [
        (SHELF, "Shelf", "Close"),
        (SHELF, "Shelf", "Len"),
        (SHELF, "Shelf", "Open"),
        (BLOCK, "Block", "Close"),
    ] {
        let found = match library.select(receiver, false, Some(Package(0)), name)? {
            Selection::Entry { member, way, .. } => {
                format!("member {member}, by the places {way:?}")
            }
            Selection::BadReceiver => "a method that needs an addressable operand".to_owned(),
            Selection::Ambiguous { .. } => "two of the same depth".to_owned(),
            Selection::NotFound => "nothing".to_owned(),
        };
        println!("{of}{{}}.{name} is {found}");
    }
    let methods = library.method_set(SHELF)?;
    println!("Shelf has {} method", methods.len());
    Ok(())
}
