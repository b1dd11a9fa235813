//! Stand-ins for the modules of goscript's type checker that its files name and that are not there.

pub mod check;
pub mod constant;
pub mod scope;
pub mod universe;
