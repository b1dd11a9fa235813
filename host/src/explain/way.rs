//! Ways from a type to a member, by the names of their fields.

use super::contents::{Contents, Kind};
use crate::{Member, Package, Type};

/// A way up to its last place, which is that of its member.
pub struct Way {
    /// The embedded fields, each behind a dot.
    fields: String,
    /// The type whose member the last place is.
    end: Type,
    last: usize,
    /// Whether a pointer is removed on it.
    pub indirect: bool,
}

impl Contents<'_> {
    /// The way from a type by its places.
    pub fn way(&self, from: Type, places: &[usize]) -> Way {
        let (&last, steps) = places.split_last().expect("a way has a place");
        let (mut end, mut indirect) = self.behind_pointer(from);
        let mut fields = String::new();
        for &place in steps {
            let field = &self.members(self.underlying(end))[place];
            let (next, pointer) = self.behind_pointer(field.of);
            fields = fields + "." + field.name;
            end = next;
            indirect |= pointer;
        }
        Way {
            fields,
            end,
            last,
            indirect,
        }
    }

    /// A type without the pointer that it is, if it or its u is one, and whether that is so.
    fn behind_pointer(&self, of: Type) -> (Type, bool) {
        match self.underlying_kind(of) {
            Kind::Pointer(element) => (element, true),
            _ => (of, false),
        }
    }

    /// The member of this identity that a way ends in: a method of the type there, or a field or method of its u.
    pub fn end_of(&self, way: &Way, name: &str, package: Option<Package>) -> Member {
        let ends = [way.end, self.underlying(way.end)];
        let mut members = ends.iter().filter_map(|&end| self.at(end, way.last));
        let member = members.find(|&member| self.has_identity(member, name, package));
        member.expect("a way ends in a member of its name")
    }

    fn has_identity(&self, member: Member, name: &str, package: Option<Package>) -> bool {
        let line = self.member(member);
        line.name == name && (is_exported(name) || line.package == package)
    }

    /// A way with its member: `.Block.Close`.
    pub fn named(&self, way: &Way, member: Member) -> String {
        format!("{}.{}", way.fields, self.member(member).name)
    }

    /// A way with its member and what that is, without a newline.
    pub fn told(&self, way: &Way, member: Member, indirect: bool) -> String {
        let (named, role) = (self.named(way, member), self.member(member).role);
        let pointer = if indirect { ", through a pointer" } else { "" };
        format!("{named}: {role}, member {member}{pointer}")
    }

    /// Whether a type is a pointer to an interface, or its u is.
    pub fn is_pointer_to_interface(&self, of: Type) -> bool {
        let (element, pointer) = self.behind_pointer(of);
        pointer && self.underlying_kind(element) == Kind::Interface
    }
}

/// Whether a name means the same in every package.
pub fn is_exported(name: &str) -> bool {
    name.starts_with(|first: char| first.is_ascii_uppercase())
}
