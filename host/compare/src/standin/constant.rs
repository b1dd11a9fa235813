//! Stands in for goscript's constants: no table has one.

#[derive(Clone, Debug, PartialEq)]
pub enum Value {}
