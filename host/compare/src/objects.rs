//! goscript's objects for a table: a package for each P line, a type for each T line, a field or function
//! for each F or M line.

use crate::goscript::objects::{ObjKey, PackageKey, TCObjects, TypeKey};
use crate::goscript::typ::{BasicInfo, BasicType, ChanDir};
use crate::table::{Kind, Member, Table};
use std::collections::HashMap;

/// The objects of a table, each found by its number.
pub struct Goscript {
    pub(crate) objs: TCObjects,
    pub(crate) packages: Vec<PackageKey>,
    pub(crate) types: Vec<TypeKey>,
    pub(crate) member_of: HashMap<ObjKey, usize>,
}

/// goscript's objects for a table text, if every line of it can be read.
pub fn build(text: &str) -> Option<Goscript> {
    Some(Goscript::new(&Table::parse(text)?))
}

impl Goscript {
    pub fn new(table: &Table) -> Goscript {
        let mut objs = TCObjects::new();
        let packages = table
            .packages
            .iter()
            .map(|path| objs.new_package(path.clone()))
            .collect();
        let mut goscript = Goscript {
            objs,
            packages,
            types: Vec::with_capacity(table.types.len()),
            member_of: HashMap::with_capacity(table.members.len()),
        };
        goscript.add_types(table);
        for t in 0..table.types.len() {
            goscript.complete(table, t);
        }
        goscript
    }

    /// Adds every type. Named types and interfaces, which may be referred to ahead, come first and
    /// are empty until they are completed.
    fn add_types(&mut self, table: &Table) {
        let early: Vec<Option<TypeKey>> = (0..table.types.len())
            .map(|t| self.early_type(&table.types[t].kind, t))
            .collect();
        // A reference ahead finds its type here; other types take their own place as they come.
        let nowhere = *self.objs.universe().byte();
        self.types = early.iter().map(|key| key.unwrap_or(nowhere)).collect();
        for (t, key) in early.iter().enumerate() {
            if key.is_none() {
                self.types[t] = self.late_type(table, t);
            }
        }
    }

    /// A named type with an object of its own, or an interface; both without members.
    fn early_type(&mut self, kind: &Kind, t: usize) -> Option<TypeKey> {
        match kind {
            Kind::Iface => Some(self.objs.new_t_empty_interface()),
            Kind::Named(_) => {
                let name = format!("T{t}");
                let obj = self.objs.new_type_name(0, None, name, None);
                let key = self.objs.new_t_named(Some(obj), None, Vec::new());
                self.objs.lobjs[obj].set_type(Some(key));
                Some(key)
            }
            _ => None,
        }
    }

    /// A type of any other kind, whose parts are there.
    fn late_type(&mut self, table: &Table, t: usize) -> TypeKey {
        match table.types[t].kind {
            Kind::Basic(k) => self.objs.new_t_basic(BASICS[k].0, BASICS[k].1, ""),
            Kind::Array(n, e) => self.objs.new_t_array(self.types[e], Some(n)),
            Kind::Slice(e) => self.objs.new_t_slice(self.types[e]),
            Kind::Pointer(e) => self.objs.new_t_pointer(self.types[e]),
            Kind::Map(k, e) => self.objs.new_t_map(self.types[k], self.types[e]),
            Kind::Chan(d, e) => self.objs.new_t_chan(DIRECTIONS[d], self.types[e]),
            Kind::Tuple(ref elements) => self.tuple(elements),
            Kind::Func(variadic, p, r) => {
                let (params, results) = (self.types[p], self.types[r]);
                self.objs
                    .new_t_signature(None, None, params, results, variadic)
            }
            Kind::Struct => self.structure(table, t),
            Kind::Iface | Kind::Named(_) => unreachable!("these are added early"),
        }
    }

    fn tuple(&mut self, elements: &[usize]) -> TypeKey {
        let vars = elements
            .iter()
            .map(|&e| {
                let typ = Some(self.types[e]);
                self.objs.new_param_var(0, None, String::new(), typ)
            })
            .collect();
        self.objs.new_t_tuple(vars)
    }

    fn structure(&mut self, table: &Table, t: usize) -> TypeKey {
        let mut fields = Vec::new();
        let mut tags = Vec::new();
        for m in table.types[t].members.clone() {
            let member = &table.members[m];
            let package = self.package(member);
            let typ = Some(self.types[member.typ]);
            let name = member.name.clone();
            let field = self.objs.new_field(0, package, name, typ, member.mark);
            self.member_of.insert(field, m);
            fields.push(field);
            tags.push(member.tag.clone());
        }
        let tags = tags.iter().any(Option::is_some).then_some(tags);
        self.objs.new_t_struct(fields, tags)
    }

    /// Gives a named type its underlying type and methods, and an interface its methods.
    fn complete(&mut self, table: &Table, t: usize) {
        let key = self.types[t];
        match table.types[t].kind {
            Kind::Named(u) => {
                let methods = self.methods(table, t);
                let underlying = self.types[u];
                if let Some(named) = self.objs.types[key].try_as_named_mut() {
                    named.set_underlying(underlying);
                    *named.methods_mut() = methods;
                }
            }
            Kind::Iface => {
                let methods = self.methods(table, t);
                if let Some(iface) = self.objs.types[key].try_as_interface_mut() {
                    *iface.all_methods_mut() = Some(methods.clone());
                    *iface.methods_mut() = methods;
                }
            }
            _ => {}
        }
    }

    fn methods(&mut self, table: &Table, t: usize) -> Vec<ObjKey> {
        let numbers = table.types[t].members.clone();
        numbers
            .map(|m| {
                let method = self.method(&table.members[m], t);
                self.member_of.insert(method, m);
                method
            })
            .collect()
    }

    /// A method with a signature and a receiver of its own.
    fn method(&mut self, member: &Member, t: usize) -> ObjKey {
        let package = self.package(member);
        let mut receiver = self.types[t];
        if member.mark {
            receiver = self.objs.new_t_pointer(receiver);
        }
        let receiver = self.objs.new_var(0, package, String::new(), Some(receiver));
        let func = *self.objs.types[self.types[member.typ]]
            .try_as_signature()
            .expect("a method's type is a func");
        let signature = self.objs.new_t_signature(
            None,
            Some(receiver),
            func.params(),
            func.results(),
            func.variadic(),
        );
        let name = member.name.clone();
        self.objs.new_func(0, package, name, Some(signature))
    }

    fn package(&self, member: &Member) -> Option<PackageKey> {
        member.package.map(|p| self.packages[p])
    }
}

const DIRECTIONS: [ChanDir; 3] = [ChanDir::SendRecv, ChanDir::SendOnly, ChanDir::RecvOnly];

/// The basic types in the order of `BasicType`.
const BASICS: [(BasicType, BasicInfo); 28] = [
    (BasicType::Invalid, BasicInfo::IsInvalid),
    (BasicType::Bool, BasicInfo::IsBoolean),
    (BasicType::Int, BasicInfo::IsInteger),
    (BasicType::Int8, BasicInfo::IsInteger),
    (BasicType::Int16, BasicInfo::IsInteger),
    (BasicType::Int32, BasicInfo::IsInteger),
    (BasicType::Int64, BasicInfo::IsInteger),
    (BasicType::Uint, BasicInfo::IsInteger),
    (BasicType::Uint8, BasicInfo::IsInteger),
    (BasicType::Uint16, BasicInfo::IsInteger),
    (BasicType::Uint32, BasicInfo::IsInteger),
    (BasicType::Uint64, BasicInfo::IsInteger),
    (BasicType::Uintptr, BasicInfo::IsInteger),
    (BasicType::Float32, BasicInfo::IsFloat),
    (BasicType::Float64, BasicInfo::IsFloat),
    (BasicType::Complex64, BasicInfo::IsComplex),
    (BasicType::Complex128, BasicInfo::IsComplex),
    (BasicType::Str, BasicInfo::IsString),
    (BasicType::UnsafePointer, BasicInfo::IsInvalid),
    (BasicType::UntypedBool, BasicInfo::IsBoolean),
    (BasicType::UntypedInt, BasicInfo::IsInteger),
    (BasicType::UntypedRune, BasicInfo::IsInteger),
    (BasicType::UntypedFloat, BasicInfo::IsFloat),
    (BasicType::UntypedComplex, BasicInfo::IsComplex),
    (BasicType::UntypedString, BasicInfo::IsString),
    (BasicType::UntypedNil, BasicInfo::IsInvalid),
    (BasicType::Byte, BasicInfo::IsInteger),
    (BasicType::Rune, BasicInfo::IsInteger),
];
