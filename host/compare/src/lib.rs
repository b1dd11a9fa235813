//! goscript's own functions over type tables, and the answers of the proved library held against them.

pub mod agreement;
#[path = "../../tests/bounds/mod.rs"]
pub mod bounds;
pub mod damage;
pub mod departures;
pub mod engine;
#[cfg(feature = "library")]
pub mod hammer;
#[cfg(feature = "library")]
#[path = "../../tests/archive/joined.rs"]
mod joined;
#[cfg(feature = "library")]
#[path = "../../tests/archive/lent.rs"]
mod lent;
#[cfg(feature = "library")]
pub mod many;
pub mod prng;
pub mod question;
pub mod random;
pub mod refusals;
#[cfg(feature = "library")]
#[path = "../../tests/gotable/repeated.rs"]
pub mod repeated;
#[cfg(feature = "library")]
pub mod side_by_side;
pub mod table;
pub mod tables;
#[cfg(feature = "library")]
#[path = "../../tests/tidied/mod.rs"]
pub mod tidied;
#[cfg(feature = "library")]
pub mod tidy;
pub mod timing;
pub mod typeask;

#[cfg(goscript)]
pub mod answers;
#[cfg(goscript)]
pub mod objects;
#[cfg(goscript)]
mod standin;

/// goscript's files, as they are.
#[cfg(goscript)]
#[allow(warnings, clippy::all)]
mod goscript {
    include!(concat!(env!("OUT_DIR"), "/goscript.rs"));
}

// lookup.rs finds it at the root of the crate.
#[cfg(goscript)]
use goscript::importer::SourceRead;
