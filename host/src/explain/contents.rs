//! What a table says of its packages, types and members. The text is known to load: nothing is checked again.

use crate::parse::{bit, number, package};
use crate::{Member, Package, Type};
use std::fmt::{self, Display, Formatter};
use std::ops::Range;
use std::str;

/// A table by the numbers of its packages, types and members.
pub struct Contents<'a> {
    pub paths: Vec<&'a str>,
    types: Vec<TypeLine>,
    members: Vec<MemberLine<'a>>,
}

struct TypeLine {
    kind: Kind,
    members: Range<usize>,
}

/// The kind of a type, with the type that it leads on to by value or as a pointer.
#[derive(Clone, Copy, PartialEq, Eq)]
pub enum Kind {
    Basic(u16),
    Array(Type),
    Slice,
    Pointer(Type),
    Map,
    Chan,
    Tuple,
    Func,
    Struct,
    Interface,
    Named(Type),
}

/// A field or method.
pub struct MemberLine<'a> {
    pub name: &'a str,
    pub package: Option<Package>,
    pub of: Type,
    pub role: Role,
}

/// What a member is.
#[derive(Clone, Copy, PartialEq, Eq)]
pub enum Role {
    Field,
    ValueMethod,
    PointerMethod,
    InterfaceMethod,
}

impl Display for Role {
    fn fmt(&self, f: &mut Formatter) -> fmt::Result {
        f.write_str(match self {
            Role::Field => "a field",
            Role::ValueMethod => "a method with value receiver",
            Role::PointerMethod => "a method with pointer receiver",
            Role::InterfaceMethod => "a method of an interface",
        })
    }
}

impl<'a> Contents<'a> {
    pub fn of(table: &'a [u8]) -> Contents<'a> {
        let text = str::from_utf8(table).expect("a table that loads is ASCII");
        let mut contents = Contents {
            paths: Vec::new(),
            types: Vec::new(),
            members: Vec::new(),
        };
        for line in text.lines() {
            contents.add(&line.split('\t').collect::<Vec<_>>());
        }
        contents
    }

    fn add(&mut self, line: &[&'a str]) {
        match *line {
            ["P", path] => self.paths.push(path),
            ["T", ref fields @ ..] => self.types.push(TypeLine {
                kind: kind(fields),
                members: self.members.len()..self.members.len(),
            }),
            ["F", name, pkg, of, ..] => self.add_member(name, pkg, of, Role::Field),
            ["M", name, pkg, of, pointer] => {
                let role = self.role(read(bit(pointer)));
                self.add_member(name, pkg, of, role);
            }
            // The first line.
            _ => (),
        }
    }

    /// Adds a member to the last type.
    fn add_member(&mut self, name: &'a str, pkg: &str, of: &str, role: Role) {
        self.members.push(MemberLine {
            name,
            package: read(package(pkg)),
            of: read(number(of)),
            role,
        });
        if let Some(last) = self.types.last_mut() {
            last.members.end = self.members.len();
        }
    }

    /// What a method of the last type is.
    fn role(&self, pointer: bool) -> Role {
        match self.types.last().map(|last| last.kind) {
            Some(Kind::Interface) => Role::InterfaceMethod,
            _ if pointer => Role::PointerMethod,
            _ => Role::ValueMethod,
        }
    }

    pub fn kind(&self, of: Type) -> Kind {
        self.types[usize::from(of.0)].kind
    }

    /// A type without its name: the u of a named type, which is not named itself.
    pub fn underlying(&self, of: Type) -> Type {
        match self.kind(of) {
            Kind::Named(underlying) => underlying,
            _ => of,
        }
    }

    pub fn underlying_kind(&self, of: Type) -> Kind {
        self.kind(self.underlying(of))
    }

    /// The member at a place among those under a type's own line.
    pub fn at(&self, of: Type, place: usize) -> Option<Member> {
        let nth = self.types[usize::from(of.0)].members.clone().nth(place)?;
        u16::try_from(nth).ok().map(Member)
    }

    /// The members under a type's own line.
    pub fn members(&self, of: Type) -> &[MemberLine<'a>] {
        &self.members[self.types[usize::from(of.0)].members.clone()]
    }

    pub fn member(&self, number: Member) -> &MemberLine<'a> {
        &self.members[usize::from(number.0)]
    }
}

/// The kind that stands behind the letter T.
fn kind(fields: &[&str]) -> Kind {
    let named = |field: &str| read(number(field));
    match *fields {
        ["basic", basic] => Kind::Basic(read(number(basic))),
        ["array", _, element] => Kind::Array(named(element)),
        ["slice", _] => Kind::Slice,
        ["pointer", element] => Kind::Pointer(named(element)),
        ["map", ..] => Kind::Map,
        ["chan", ..] => Kind::Chan,
        ["tuple", ..] => Kind::Tuple,
        ["func", ..] => Kind::Func,
        ["iface"] => Kind::Interface,
        ["named", underlying] => Kind::Named(named(underlying)),
        _ => Kind::Struct,
    }
}

fn read<T, E: fmt::Debug>(field: Result<T, E>) -> T {
    field.expect("a table that loads has fields of the right form")
}
