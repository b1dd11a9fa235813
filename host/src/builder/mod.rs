//! Tables from calls, for a checker that has its types as values and would not write text.

mod kinds;
mod text;

pub use kinds::{Basic, Direction, Receiver};
pub use text::Table;

use crate::{Package, Type};
use std::collections::HashMap;
use text::{clean, Lines};

/// Makes a table: each call adds a type and gives its number, or adds a member to a type.
///
/// **A type refers to types that were added before it, but for named types and interfaces**: add the types of a
/// struct's fields before the struct. A type that leads back to itself does so through a named type, as in Go: add that
/// first, and its underlying type and its methods later. A type without members is written once, however often it is
/// added.
///
/// No call fails for what a table may not have: such a table is refused when it is loaded, at a line that
/// [`Table::line`] shows. Types and members are to be this builder's own; a call with a number that it has not given
/// may panic, or mean another type.
///
/// ```
/// use yifgrun::{Basic, Library, Receiver, Selection, TableBuilder};
///
/// // package office/cat
/// // type Block struct { Len int; next *Block }
/// // func (b *Block) Close() {}
/// let mut table = TableBuilder::new(&["office/cat"]);
/// let cat = Some(table.package("office/cat"));
/// let int = table.basic(Basic::Int);
/// let block = table.named();
/// let pointer = table.pointer(block);
/// let fields = table.structure();
/// table.field(fields, "Len", cat, int);
/// table.field(fields, "next", cat, pointer);
/// table.underlying(block, fields);
/// let signature = table.func(&[], &[]);
/// let close = table.method(block, "Close", cat, signature, Receiver::Pointer);
///
/// let table = table.finish();
/// let mut library = Library::new(&table)?;
/// let entry = Selection::Entry { member: table.member(close), indirect: false, way: vec![0] };
/// assert_eq!(library.select(block, true, cat, "Close")?, entry);
/// assert_eq!(library.select(block, false, cat, "Close")?, Selection::BadReceiver);
/// # Ok::<(), yifgrun::Refusal>(())
/// ```
#[derive(Clone, Debug)]
pub struct TableBuilder {
    paths: Vec<String>,
    types: Vec<Lines>,
    /// Types without members, by their lines.
    known: HashMap<String, Type>,
}

/// A member that was added to a type. [`Table::member`] has its number, which is known when the table is finished:
/// members are numbered as they stand in it, and until then a type may get more of them.
#[derive(Clone, Copy, Debug, PartialEq, Eq, PartialOrd, Ord, Hash)]
pub struct Added {
    of: Type,
    nth: usize,
}

impl TableBuilder {
    /// A table of these packages. They are numbered in the order of their paths, whichever order they come in, so they
    /// have to be known before the first of them is used.
    pub fn new(paths: &[&str]) -> TableBuilder {
        let mut paths: Vec<String> = paths.iter().map(|path| path.to_string()).collect();
        paths.sort();
        paths.dedup();
        TableBuilder {
            paths,
            types: Vec::new(),
            known: HashMap::new(),
        }
    }

    /// The package of a path. Where a package is asked for, `None` stands for none, as of the methods of `error`.
    ///
    /// # Panics
    ///
    /// If the path is not one of the table's.
    pub fn package(&self, path: &str) -> Package {
        let place = self.paths.iter().position(|known| known == path);
        let place = place.unwrap_or_else(|| panic!("no package {path} was named at first"));
        Package(u16::try_from(place).unwrap_or(u16::MAX))
    }

    /// `int`, `string`, ..
    pub fn basic(&mut self, basic: Basic) -> Type {
        self.once(format!("basic\t{}", basic as u8))
    }

    /// `[length]element`
    pub fn array(&mut self, length: u32, element: Type) -> Type {
        self.once(format!("array\t{length}\t{element}"))
    }

    /// `[]element`
    pub fn slice(&mut self, element: Type) -> Type {
        self.once(format!("slice\t{element}"))
    }

    /// `*element`
    pub fn pointer(&mut self, element: Type) -> Type {
        self.once(format!("pointer\t{element}"))
    }

    /// `map[key]element`
    pub fn map(&mut self, key: Type, element: Type) -> Type {
        self.once(format!("map\t{key}\t{element}"))
    }

    /// `chan element`
    pub fn chan(&mut self, direction: Direction, element: Type) -> Type {
        self.once(format!("chan\t{}\t{element}", direction as u8))
    }

    /// `func(parameters) results`; a method's type is one, without its receiver.
    pub fn func(&mut self, parameters: &[Type], results: &[Type]) -> Type {
        self.signature(false, parameters, results)
    }

    /// `func(parameters...) results`: the last parameter is a slice.
    pub fn variadic_func(&mut self, parameters: &[Type], results: &[Type]) -> Type {
        self.signature(true, parameters, results)
    }

    /// `struct { .. }`, which gets its fields by [`field`](Self::field) and [`embedded`](Self::embedded). Their types are
    /// added before it, but for named types and interfaces; otherwise the table is refused by
    /// [`Kind`](crate::RefusalKind::Kind).
    pub fn structure(&mut self) -> Type {
        self.add(Lines::of("struct".to_owned()))
    }

    /// `interface { .. }`, which gets its methods by [`method`](Self::method): all of them, those of embedded
    /// interfaces too, each once. They are put in the order of their ids.
    pub fn interface(&mut self) -> Type {
        self.add(Lines::ordered("iface".to_owned()))
    }

    /// `type N U`, a type of its own, which gets its U by [`underlying`](Self::underlying) and its methods by
    /// [`method`](Self::method).
    pub fn named(&mut self) -> Type {
        self.add(Lines::of("named".to_owned()))
    }

    /// Says the underlying type of a named one. It is said once: without it, or with two, the table is refused by
    /// [`Form`](crate::RefusalKind::Form).
    pub fn underlying(&mut self, named: Type, underlying: Type) {
        self.lines(named).extend(&underlying.to_string());
    }

    /// Adds a field to a struct.
    pub fn field(
        &mut self,
        structure: Type,
        name: &str,
        package: Option<Package>,
        of: Type,
    ) -> Added {
        self.member(structure, "F", name, package, [of.0, 0])
    }

    /// Adds an embedded field to a struct. In Go its name is that of the type.
    pub fn embedded(
        &mut self,
        structure: Type,
        name: &str,
        package: Option<Package>,
        of: Type,
    ) -> Added {
        self.member(structure, "F", name, package, [of.0, 1])
    }

    /// Gives a field its tag, once: 1 to 128 bytes from 32 to 126, others are refused when the table is loaded. An empty
    /// one is no tag, as in Go.
    pub fn tag(&mut self, field: Added, tag: &str) {
        if !tag.is_empty() {
            self.lines(field.of).extend_member(field.nth, &clean(tag));
        }
    }

    /// Adds a method to a named type or an interface; its type is one of [`func`](Self::func)'s.
    pub fn method(
        &mut self,
        of: Type,
        name: &str,
        package: Option<Package>,
        signature: Type,
        receiver: Receiver,
    ) -> Added {
        self.member(of, "M", name, package, [signature.0, receiver as u16])
    }

    /// The table, whose members have their numbers now. To go on with more types, finish a clone: types keep their
    /// numbers, members may get others.
    pub fn finish(self) -> Table {
        Table::of(&self.paths, self.types)
    }

    fn signature(&mut self, variadic: bool, parameters: &[Type], results: &[Type]) -> Type {
        let parameters = self.tuple(parameters);
        let results = self.tuple(results);
        let variadic = u8::from(variadic);
        self.once(format!("func\t{variadic}\t{parameters}\t{results}"))
    }

    fn tuple(&mut self, types: &[Type]) -> Type {
        let fields: String = types.iter().map(|t| format!("\t{t}")).collect();
        self.once(format!("tuple{fields}"))
    }

    /// The type of a line that has no members.
    fn once(&mut self, line: String) -> Type {
        if let Some(&known) = self.known.get(&line) {
            return known;
        }
        let new = self.add(Lines::of(line.clone()));
        self.known.insert(line, new);
        new
    }

    fn add(&mut self, lines: Lines) -> Type {
        // A table of so many types is refused, whatever their numbers are.
        let number = u16::try_from(self.types.len()).unwrap_or(u16::MAX);
        self.types.push(lines);
        Type(number)
    }

    fn lines(&mut self, of: Type) -> &mut Lines {
        &mut self.types[usize::from(of.0)]
    }

    fn member(
        &mut self,
        of: Type,
        letter: &str,
        name: &str,
        package: Option<Package>,
        numbers: [u16; 2],
    ) -> Added {
        let path = package.and_then(|p| self.paths.get(usize::from(p.0)));
        let id = text::id(path.map_or("_", |path| path), name);
        let package = package.map_or("-".to_owned(), |p| p.to_string());
        let [first, second] = numbers;
        let line = format!("{letter}\t{}\t{package}\t{first}\t{second}", clean(name));
        let nth = self.lines(of).push(line, id);
        Added { of, nth }
    }
}
