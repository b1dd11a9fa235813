//! Stands in for goscript's universe: the outermost scope and the package `unsafe`, which every set of
//! objects needs. A basic type is built from its line of the table, so none is declared here but the two
//! aliases that the type asks for.

use super::scope::Scope;
use crate::goscript::objects::{PackageKey, ScopeKey, TCObjects, TypeKey};
use crate::goscript::package::Package;
use crate::goscript::typ::{BasicInfo, BasicType};
use go_parser::Map;

#[derive(Clone, Debug, PartialEq)]
pub enum Builtin {}

pub struct Universe {
    scope: ScopeKey,
    unsafe_pkg: PackageKey,
    types: Map<BasicType, TypeKey>,
    byte: TypeKey,
    rune: TypeKey,
}

impl Universe {
    pub fn new(objs: &mut TCObjects) -> Universe {
        let scope = objs
            .scopes
            .insert(Scope::new(None, 0, 0, String::new(), false));
        Universe {
            scope,
            unsafe_pkg: objs
                .pkgs
                .insert(Package::new("unsafe".to_owned(), None, scope)),
            types: Map::new(),
            byte: objs.new_t_basic(BasicType::Byte, BasicInfo::IsInteger, "byte"),
            rune: objs.new_t_basic(BasicType::Rune, BasicInfo::IsInteger, "rune"),
        }
    }

    pub fn scope(&self) -> &ScopeKey {
        &self.scope
    }

    pub fn unsafe_pkg(&self) -> &PackageKey {
        &self.unsafe_pkg
    }

    pub fn types(&self) -> &Map<BasicType, TypeKey> {
        &self.types
    }

    pub fn byte(&self) -> &TypeKey {
        &self.byte
    }

    pub fn rune(&self) -> &TypeKey {
        &self.rune
    }
}
