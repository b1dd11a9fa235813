//! The fields and methods of a random table.

use super::maker::{Maker, Plan};
use crate::table::{Kind, Member};
use go_parser::ast::is_exported;

/// Few names, so that they meet; exported or not, and the blank one.
const NAMES: [&str; 12] = [
    "X", "Y", "Open", "Close", "Len", "x", "y", "open", "_0", "E", "e", "_",
];

const TAGS: [&str; 3] = ["t", "k:\"v\"", "a b"];

impl Maker<'_> {
    /// The fields of a struct: an earlier one's with twins for types, or new ones.
    pub(super) fn structure(&mut self, t: usize) {
        self.kinds[t] = Kind::Struct;
        let mut fields = if self.copy_model(t, 35) {
            self.members[self.model[t]].clone()
        } else {
            let count = self.prng.below(self.shape.members + 1);
            (0..count).map(|_| self.field(t)).collect()
        };
        for field in &mut fields {
            self.alter(t, field);
        }
        for field in fields {
            if self.has_room() && self.is_new(t, &field) && self.contain(t, field.typ) {
                self.members[t].push(field);
            }
        }
    }

    fn field(&mut self, t: usize) -> Member {
        let typ = self.part(t);
        let tag = self.prng.chance(10).then(|| {
            let tag = TAGS[self.prng.below(TAGS.len())];
            tag.to_owned()
        });
        Member {
            name: self.any_name(),
            package: self.any_package(),
            typ,
            mark: self.embeds(typ) && self.prng.chance(65),
            tag,
        }
    }

    /// Gives a field a twin of its type and a package that leaves its identity, seldom another name.
    fn alter(&mut self, t: usize, field: &mut Member) {
        let twin = self.twin(t, field.typ);
        if !field.mark || self.embeds(twin) {
            field.typ = twin;
        }
        field.package = self.twin_package(field);
        if self.prng.chance(4) {
            field.name = self.any_name();
        }
    }

    /// Whether a field of this type may be embedded: "neither a named pointer type nor a pointer to a
    /// pointer, an interface, or a name of either".
    fn embeds(&self, t: usize) -> bool {
        match self.kinds[t] {
            Kind::Named(u) => self.plan[u] != Plan::Pointer,
            Kind::Pointer(e) => {
                let end = match self.kinds[e] {
                    Kind::Named(u) => u,
                    _ => e,
                };
                !matches!(self.plan[end], Plan::Pointer | Plan::Iface)
            }
            _ => true,
        }
    }

    /// The methods of interfaces, then of named types.
    pub fn members(&mut self) {
        for t in self.planned(Plan::Iface) {
            self.interface(t);
        }
        for t in self.planned(Plan::Named) {
            match self.kinds[t] {
                Kind::Named(u) if matches!(self.plan[u], Plan::Pointer | Plan::Iface) => {}
                _ => self.declare(t),
            }
        }
    }

    /// The methods of an interface, ascending by id: those of its model, or new ones.
    fn interface(&mut self, t: usize) {
        let methods = if self.model[t] != t {
            self.implemented(self.model[t])
        } else {
            self.methods()
        };
        self.add_methods(t, methods);
        self.members[t].sort_by_key(|method| method.id(&self.packages));
    }

    /// The methods of a named type: those of some interface, or new ones.
    fn declare(&mut self, t: usize) {
        let ifaces = self.planned(Plan::Iface);
        let mut methods = match self.prng.pick(&ifaces) {
            Some(&i) if self.prng.chance(50) => self.implemented(i),
            _ => self.methods(),
        };
        for method in &mut methods {
            method.mark = self.prng.chance(30);
        }
        self.add_methods(t, methods);
    }

    /// Adds the methods that clash with none and with no field of the struct.
    fn add_methods(&mut self, t: usize, methods: Vec<Member>) {
        for method in methods {
            if self.has_room() && method.name != "_" && self.is_new(t, &method) {
                self.members[t].push(method);
            }
        }
    }

    /// The methods of an interface, with twins for funcs and seldom another one.
    fn implemented(&mut self, iface: usize) -> Vec<Member> {
        let mut methods = self.members[iface].clone();
        for method in &mut methods {
            method.package = self.twin_package(method);
            method.typ = if self.prng.chance(4) {
                self.func()
            } else {
                self.twin(self.plan.len(), method.typ)
            };
        }
        methods
    }

    fn methods(&mut self) -> Vec<Member> {
        let count = self.prng.below(self.shape.members + 1);
        (0..count).map(|_| self.method()).collect()
    }

    fn method(&mut self) -> Member {
        Member {
            name: self.any_name(),
            package: self.any_package(),
            typ: self.func(),
            mark: false,
            tag: None,
        }
    }

    fn func(&mut self) -> usize {
        let funcs = self.planned(Plan::Func);
        self.prng.pick(&funcs).copied().unwrap_or(2)
    }

    fn has_room(&self) -> bool {
        self.members.iter().map(Vec::len).sum::<usize>() < self.shape.all_members
    }

    /// Whether a type may have this member beside those it has and, if it is named, those of its struct.
    fn is_new(&self, t: usize, member: &Member) -> bool {
        let id = member.id(&self.packages);
        let clashes = |other: &Member| other.id(&self.packages) == id;
        let own = self.members[t].iter().any(clashes);
        let fields = match self.kinds[t] {
            Kind::Named(u) => self.members[u].iter().any(clashes),
            _ => false,
        };
        member.name == "_" || !(own || fields)
    }

    fn any_name(&mut self) -> String {
        let name = NAMES[self.prng.below(NAMES.len())].to_owned();
        if name == "_" || !self.shape.long_names {
            return name;
        }
        let length = self.prng.below(32);
        let tail = (0..length).map(|_| char::from(b'a' + self.prng.below(3) as u8));
        name + &tail.collect::<String>()
    }

    fn any_package(&mut self) -> Option<usize> {
        self.prng.below(self.packages.len() + 1).checked_sub(1)
    }

    /// A package with which a member's identity stays: any for an exported name, otherwise its own.
    fn twin_package(&mut self, member: &Member) -> Option<usize> {
        if is_exported(&member.name) && self.prng.chance(50) {
            return self.any_package();
        }
        member.package
    }
}
