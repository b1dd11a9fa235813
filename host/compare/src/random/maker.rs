//! The packages and types of a random table. Kinds are planned before any type is made, since named types
//! and interfaces may be referred to ahead.

use super::Shape;
use crate::prng::Prng;
use crate::table::{Kind, Member, Table};
use std::collections::BTreeSet;

/// What paths begin with: they sort before, between and behind exported names, and one is the front of another.
const PATHS: [&str; 8] = ["a", "b", "office/cat", "Open", "X", "z", "_a", "a.b"];

/// The kinds, each as often as it is planned among a hundred.
const WEIGHTS: [(Plan, usize); 11] = [
    (Plan::Basic, 4),
    (Plan::Array, 3),
    (Plan::Slice, 4),
    (Plan::Pointer, 12),
    (Plan::Map, 2),
    (Plan::Chan, 2),
    (Plan::Tuple, 9),
    (Plan::Func, 10),
    (Plan::Struct, 24),
    (Plan::Iface, 10),
    (Plan::Named, 20),
];

/// A type's kind before its parts are chosen.
#[derive(Clone, Copy, PartialEq, Eq)]
pub enum Plan {
    Basic,
    Array,
    Slice,
    Pointer,
    Map,
    Chan,
    Tuple,
    Func,
    Struct,
    Iface,
    Named,
}

pub struct Maker<'a> {
    pub(super) prng: &'a mut Prng,
    pub(super) shape: &'a Shape,
    pub(super) packages: Vec<String>,
    pub(super) plan: Vec<Plan>,
    /// The types made so far; a named type's stands from the plan on.
    pub(super) kinds: Vec<Kind>,
    pub(super) members: Vec<Vec<Member>>,
    /// The type that a type is made after, or itself: types with one model are mostly identical.
    pub(super) model: Vec<usize>,
    /// What each type contains by value.
    pub(super) contains: Vec<Vec<usize>>,
}

impl<'a> Maker<'a> {
    pub fn new(prng: &'a mut Prng, shape: &'a Shape) -> Maker<'a> {
        Maker {
            prng,
            shape,
            packages: Vec::new(),
            plan: Vec::new(),
            kinds: Vec::new(),
            members: Vec::new(),
            model: Vec::new(),
            contains: Vec::new(),
        }
    }

    /// Packages whose paths ascend by their bytes.
    pub fn packages(&mut self) {
        let count = self.prng.below(self.shape.packages + 1);
        let mut paths = BTreeSet::new();
        while paths.len() < count {
            paths.insert(self.path());
        }
        self.packages = paths.into_iter().collect();
    }

    /// One of some 800 paths: half of them end in a number, so that `a10` comes before `a9`.
    fn path(&mut self) -> String {
        let path = PATHS[self.prng.below(PATHS.len())].to_owned();
        match self.prng.below(200) {
            number @ 0..100 => format!("{path}{number}"),
            _ => path,
        }
    }

    /// Plans every kind, and what named types stand for and interfaces are made after.
    pub fn plan(&mut self) {
        let more = self.shape.types - self.shape.least_types;
        let count = self.shape.least_types + self.prng.below(more + 1);
        self.plan = vec![Plan::Basic, Plan::Tuple, Plan::Func];
        for _ in 3..count {
            let plan = self.weighted();
            self.plan.push(plan);
        }
        self.kinds = vec![Kind::Struct; count];
        self.members = vec![Vec::new(); count];
        self.contains = vec![Vec::new(); count];
        self.model = (0..count).collect();
        for t in 0..count {
            match self.plan[t] {
                Plan::Named => self.name(t),
                Plan::Iface => {
                    self.kinds[t] = Kind::Iface;
                    self.copy_model(t, 50);
                }
                _ => {}
            }
        }
    }

    fn weighted(&mut self) -> Plan {
        let mut rest = self.prng.below(100);
        for (plan, weight) in WEIGHTS {
            if rest < weight {
                return plan;
            }
            rest -= weight;
        }
        Plan::Struct
    }

    /// Lets a named type stand for a type that is neither named nor a tuple, mostly a struct, often an interface.
    fn name(&mut self, t: usize) {
        let what = self.prng.below(100);
        let (structs, interfaces) = (what < 70, (70..88).contains(&what));
        let allowed = |u: &usize| match self.plan[*u] {
            Plan::Struct => !interfaces,
            Plan::Iface => !structs,
            Plan::Named | Plan::Tuple => false,
            _ => !structs && !interfaces,
        };
        let found: Vec<usize> = (0..self.plan.len()).filter(allowed).collect();
        let u = self.prng.pick(&found).copied().unwrap_or(0);
        self.kinds[t] = Kind::Named(u);
        self.contains[t].push(u);
    }

    /// Makes a type after an earlier one of the same plan, in so many cases of a hundred.
    pub(super) fn copy_model(&mut self, t: usize, percent: usize) -> bool {
        let mut same = self.planned(self.plan[t]);
        same.retain(|&e| e < t);
        match self.prng.pick(&same) {
            Some(&earlier) if self.prng.chance(percent) => {
                self.model[t] = self.model[earlier];
                true
            }
            _ => false,
        }
    }

    /// Makes every type that is neither named nor an interface, with its fields.
    pub fn types(&mut self) {
        for t in 0..self.plan.len() {
            let plan = self.plan[t];
            match plan {
                Plan::Named | Plan::Iface => {}
                Plan::Struct => self.structure(t),
                _ if self.copy_model(t, 35) => {
                    let kind = self.kinds[self.model[t]].clone();
                    self.kinds[t] = self.twin_kind(t, kind);
                }
                _ => self.kinds[t] = self.kind(t, plan),
            }
        }
    }

    fn kind(&mut self, t: usize, plan: Plan) -> Kind {
        match plan {
            Plan::Array => match self.contained(t) {
                Some(e) => Kind::Array([0, 1, 3, 4_294_967_295][self.prng.below(4)], e),
                None => Kind::Slice(self.target(t)),
            },
            Plan::Slice => Kind::Slice(self.target(t)),
            Plan::Pointer => Kind::Pointer(self.pointed(t)),
            Plan::Map => Kind::Map(self.target(t), self.target(t)),
            Plan::Chan => Kind::Chan(self.prng.below(3), self.target(t)),
            Plan::Tuple => {
                let length = self.prng.below(4);
                Kind::Tuple((0..length).map(|_| self.element(t)).collect())
            }
            Plan::Func => {
                let (p, r) = (self.tuple(t), self.tuple(t));
                Kind::Func(self.variadic(p), p, r)
            }
            _ => Kind::Basic(self.prng.below(28)),
        }
    }

    /// The kind of a model with its parts replaced by twins of theirs.
    fn twin_kind(&mut self, t: usize, kind: Kind) -> Kind {
        match kind {
            Kind::Array(n, e) => match self.twin(t, e) {
                twin if self.contain(t, twin) => Kind::Array(n, twin),
                twin => Kind::Slice(twin),
            },
            Kind::Slice(e) => Kind::Slice(self.twin(t, e)),
            Kind::Pointer(e) => Kind::Pointer(self.twin(t, e)),
            Kind::Map(k, e) => Kind::Map(self.twin(t, k), self.twin(t, e)),
            Kind::Chan(d, e) => Kind::Chan(d, self.twin(t, e)),
            Kind::Tuple(elements) => {
                Kind::Tuple(elements.iter().map(|&e| self.twin(t, e)).collect())
            }
            Kind::Func(v, p, r) => {
                let (p, r) = (self.twin(t, p), self.twin(t, r));
                Kind::Func(v && self.ends_in_slice(p), p, r)
            }
            Kind::Basic(8) => Kind::Basic(26),
            Kind::Basic(5) => Kind::Basic(27),
            other => other,
        }
    }

    /// Every type of a plan.
    pub(super) fn planned(&self, plan: Plan) -> Vec<usize> {
        let same = |t: &usize| self.plan[*t] == plan;
        (0..self.plan.len()).filter(same).collect()
    }

    /// Whether a line of type `t` may refer to `e`: a smaller number, or a named type or interface.
    pub(super) fn refers(&self, t: usize, e: usize) -> bool {
        e < t || matches!(self.plan[e], Plan::Named | Plan::Iface)
    }

    /// A type that a line of type `t` may refer to.
    pub(super) fn target(&mut self, t: usize) -> usize {
        let allowed = |e: &usize| self.refers(t, *e) && self.plan[*e] != Plan::Tuple;
        let found: Vec<usize> = (0..self.plan.len()).filter(allowed).collect();
        self.prng.pick(&found).copied().unwrap_or(0)
    }

    /// The type that a pointer leads to, now and then a named interface, whose methods the pointer does not have.
    fn pointed(&mut self, t: usize) -> usize {
        let names_interface =
            |e: &usize| matches!(self.kinds[*e], Kind::Named(u) if self.plan[u] == Plan::Iface);
        let found: Vec<usize> = (0..self.plan.len()).filter(names_interface).collect();
        match self.prng.pick(&found) {
            Some(&e) if self.prng.chance(25) => e,
            _ => self.target(t),
        }
    }

    /// The type of a field, often one that has members, so that ways branch and meet again.
    pub(super) fn part(&mut self, t: usize) -> usize {
        let has_members = |e: &usize| {
            let kinds = [Plan::Struct, Plan::Named, Plan::Iface, Plan::Pointer];
            kinds.contains(&self.plan[*e]) && self.refers(t, *e)
        };
        let found: Vec<usize> = (0..self.plan.len()).filter(has_members).collect();
        match self.prng.pick(&found) {
            Some(&e) if self.prng.chance(60) => e,
            _ => self.target(t),
        }
    }

    /// An element of a tuple, often an interface so that interfaces recur through their methods.
    fn element(&mut self, t: usize) -> usize {
        let ifaces = self.planned(Plan::Iface);
        match self.prng.pick(&ifaces) {
            Some(&e) if self.prng.chance(40) => e,
            _ => self.target(t),
        }
    }

    /// A tuple before `t`.
    fn tuple(&mut self, t: usize) -> usize {
        let mut tuples = self.planned(Plan::Tuple);
        tuples.retain(|&e| e < t);
        self.prng.pick(&tuples).copied().unwrap_or(1)
    }

    fn variadic(&mut self, parameters: usize) -> bool {
        self.ends_in_slice(parameters) && self.prng.chance(50)
    }

    fn ends_in_slice(&self, tuple: usize) -> bool {
        let Kind::Tuple(elements) = &self.kinds[tuple] else {
            return false;
        };
        let last = elements.last();
        last.is_some_and(|&e| matches!(self.kinds[e], Kind::Slice(_)))
    }

    /// A type made after the same model as `e` that a line of type `t` may refer to; `e` may be.
    pub(super) fn twin(&mut self, t: usize, e: usize) -> usize {
        let twins = |o: &usize| self.model[*o] == self.model[e] && self.refers(t, *o);
        let found: Vec<usize> = (0..self.plan.len()).filter(twins).collect();
        self.prng.pick(&found).copied().unwrap_or(e)
    }

    /// A type that `t` may contain by value, and contains from now on.
    fn contained(&mut self, t: usize) -> Option<usize> {
        let e = self.target(t);
        self.contain(t, e).then_some(e)
    }

    /// Lets `t` contain `e` by value, unless `e` contains `t`.
    pub(super) fn contain(&mut self, t: usize, e: usize) -> bool {
        let mut met = vec![false; self.plan.len()];
        let mut open = vec![e];
        while let Some(next) = open.pop() {
            if next == t {
                return false;
            }
            if !met[next] {
                met[next] = true;
                open.extend(&self.contains[next]);
            }
        }
        self.contains[t].push(e);
        true
    }

    /// The table made, with its last members dropped as long as the text is too long.
    pub fn table(mut self) -> Table {
        loop {
            let table = self.assembled();
            let length = table.to_string().len();
            if length <= self.shape.bytes {
                return table;
            }
            self.drop_members(length - self.shape.bytes);
        }
    }

    /// Drops members from the end until so many bytes are saved.
    fn drop_members(&mut self, bytes: usize) {
        let mut saved = 0;
        for list in self.members.iter_mut().rev() {
            while saved < bytes {
                let Some(member) = list.pop() else { break };
                saved += member.to_string().len() + 3;
            }
        }
    }

    fn assembled(&self) -> Table {
        let mut table = Table {
            packages: self.packages.clone(),
            ..Table::default()
        };
        for (kind, members) in self.kinds.iter().zip(&self.members) {
            table.add_type(kind.clone());
            for member in members {
                table.add_member(member.clone());
            }
        }
        table
    }
}
