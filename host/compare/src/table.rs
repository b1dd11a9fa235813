//! The table text of document 01, read and written. The reader is for tables that load: it tells no
//! refusal from another and overlooks most of them.

use std::fmt::{self, Display, Formatter};
use std::ops::Range;

#[derive(Clone, Debug, Default, PartialEq, Eq)]
pub struct Table {
    pub packages: Vec<String>,
    pub types: Vec<Type>,
    pub members: Vec<Member>,
}

#[derive(Clone, Debug, PartialEq, Eq)]
pub struct Type {
    pub kind: Kind,
    /// The numbers of its fields or methods.
    pub members: Range<usize>,
}

#[derive(Clone, Debug, PartialEq, Eq)]
pub enum Kind {
    Basic(usize),
    Array(u64, usize),
    Slice(usize),
    Pointer(usize),
    Map(usize, usize),
    Chan(usize, usize),
    Tuple(Vec<usize>),
    /// Variadic or not, parameters, results.
    Func(bool, usize, usize),
    Struct,
    Iface,
    Named(usize),
}

/// A field of a struct, or a method of a named type or interface.
#[derive(Clone, Debug, PartialEq, Eq)]
pub struct Member {
    pub name: String,
    pub package: Option<usize>,
    /// The field's type or the method's func.
    pub typ: usize,
    /// Embedded field, or method with a pointer receiver.
    pub mark: bool,
    pub tag: Option<String>,
}

impl Table {
    /// The table that a text stands for, if every line of it can be read.
    pub fn parse(text: &str) -> Option<Table> {
        let mut table = Table::default();
        for line in text.strip_prefix("typetable\t1\n")?.lines() {
            let (letter, rest) = line.split_once('\t')?;
            match letter {
                "P" => table.packages.push(rest.to_owned()),
                "T" => table.add_type(kind(rest)?),
                "F" | "M" => table.add_member(member(rest)?)?,
                _ => return None,
            }
        }
        Some(table)
    }

    /// Adds a type that has no members yet.
    pub fn add_type(&mut self, kind: Kind) {
        let end = self.members.len();
        self.types.push(Type {
            kind,
            members: end..end,
        });
    }

    /// Adds a member to the last type, if there is one.
    pub fn add_member(&mut self, member: Member) -> Option<()> {
        self.members.push(member);
        self.types.last_mut()?.members.end = self.members.len();
        Some(())
    }

    /// The members of a type.
    pub fn members_of(&self, t: usize) -> &[Member] {
        &self.members[self.types[t].members.clone()]
    }
}

impl Member {
    /// "Its id is the name if exported, otherwise path (`_` if none), a dot, name".
    pub fn id(&self, packages: &[String]) -> String {
        if go_parser::ast::is_exported(&self.name) {
            return self.name.clone();
        }
        let path = self.package.map_or("_", |p| &packages[p]);
        format!("{path}.{}", self.name)
    }
}

fn kind(fields: &str) -> Option<Kind> {
    let (word, rest) = fields.split_once('\t').unwrap_or((fields, ""));
    if word == "array" {
        let (length, element) = rest.split_once('\t')?;
        return Some(Kind::Array(length.parse().ok()?, number(element)?));
    }
    let numbers = if rest.is_empty() {
        Vec::new()
    } else {
        rest.split('\t').map(number).collect::<Option<Vec<_>>>()?
    };
    Some(match (word, &numbers[..]) {
        ("basic", &[k]) => Kind::Basic(k),
        ("slice", &[e]) => Kind::Slice(e),
        ("pointer", &[e]) => Kind::Pointer(e),
        ("map", &[k, e]) => Kind::Map(k, e),
        ("chan", &[d, e]) => Kind::Chan(d, e),
        ("tuple", _) => Kind::Tuple(numbers),
        ("func", &[v, p, r]) => Kind::Func(v == 1, p, r),
        ("struct", &[]) => Kind::Struct,
        ("iface", &[]) => Kind::Iface,
        ("named", &[u]) => Kind::Named(u),
        _ => return None,
    })
}

fn member(fields: &str) -> Option<Member> {
    let mut fields = fields.split('\t');
    Some(Member {
        name: fields.next()?.to_owned(),
        package: package(fields.next()?)?,
        typ: number(fields.next()?)?,
        mark: fields.next()? == "1",
        tag: fields.next().map(str::to_owned),
    })
}

/// A package number, or `-` for none.
pub fn package(field: &str) -> Option<Option<usize>> {
    if field == "-" {
        Some(None)
    } else {
        number(field).map(Some)
    }
}

pub fn number(field: &str) -> Option<usize> {
    field.parse().ok()
}

impl Display for Table {
    fn fmt(&self, f: &mut Formatter) -> fmt::Result {
        f.write_str("typetable\t1\n")?;
        for path in &self.packages {
            writeln!(f, "P\t{path}")?;
        }
        for (t, typ) in self.types.iter().enumerate() {
            writeln!(f, "T\t{}", typ.kind)?;
            let letter = if typ.kind == Kind::Struct { 'F' } else { 'M' };
            for member in self.members_of(t) {
                writeln!(f, "{letter}\t{member}")?;
            }
        }
        Ok(())
    }
}

impl Display for Kind {
    fn fmt(&self, f: &mut Formatter) -> fmt::Result {
        match self {
            Kind::Basic(k) => write!(f, "basic\t{k}"),
            Kind::Array(n, e) => write!(f, "array\t{n}\t{e}"),
            Kind::Slice(e) => write!(f, "slice\t{e}"),
            Kind::Pointer(e) => write!(f, "pointer\t{e}"),
            Kind::Map(k, e) => write!(f, "map\t{k}\t{e}"),
            Kind::Chan(d, e) => write!(f, "chan\t{d}\t{e}"),
            Kind::Tuple(elements) => {
                f.write_str("tuple")?;
                elements.iter().try_for_each(|e| write!(f, "\t{e}"))
            }
            Kind::Func(v, p, r) => write!(f, "func\t{}\t{p}\t{r}", u8::from(*v)),
            Kind::Struct => f.write_str("struct"),
            Kind::Iface => f.write_str("iface"),
            Kind::Named(u) => write!(f, "named\t{u}"),
        }
    }
}

impl Display for Member {
    fn fmt(&self, f: &mut Formatter) -> fmt::Result {
        write!(f, "{}\t", self.name)?;
        match self.package {
            Some(p) => write!(f, "{p}")?,
            None => f.write_str("-")?,
        }
        write!(f, "\t{}\t{}", self.typ, u8::from(self.mark))?;
        self.tag.iter().try_for_each(|tag| write!(f, "\t{tag}"))
    }
}
