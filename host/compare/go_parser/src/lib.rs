//! Stands in for goscript's parser crate: what its type files take from there.
//!
//! `Map`, `PiggyVec`, the keys and `is_exported` run in the comparison. The rest is there so that
//! importer.rs compiles; nothing calls it.

use std::marker::PhantomData;
use std::ops::{Index, IndexMut};

pub type Pos = usize;

/// goscript's map without its feature `btree_map`.
pub type Map<K, V> = std::collections::HashMap<K, V>;

/// A key of a `PiggyVec`: a place in it, in a type of its own.
pub trait PiggyKey: Copy {
    fn at(place: usize) -> Self;
    fn place(self) -> usize;
}

/// Declares key types, each a place in a type of its own.
#[macro_export]
macro_rules! piggy_key_type {
    ($($vis:vis struct $name:ident;)*) => {
        $(
            #[derive(Copy, Clone, Debug, PartialEq, Eq, PartialOrd, Ord, Hash)]
            $vis struct $name(usize);

            impl $crate::PiggyKey for $name {
                #[inline]
                fn at(place: usize) -> Self {
                    $name(place)
                }

                #[inline]
                fn place(self) -> usize {
                    self.0
                }
            }
        )*
    };
}

/// A list that hands out a key for each value put in.
pub struct PiggyVec<K, V> {
    values: Vec<V>,
    key: PhantomData<K>,
}

impl<K: PiggyKey, V> PiggyVec<K, V> {
    pub fn with_capacity(capacity: usize) -> Self {
        PiggyVec {
            values: Vec::with_capacity(capacity),
            key: PhantomData,
        }
    }

    pub fn insert(&mut self, value: V) -> K {
        self.values.push(value);
        K::at(self.values.len() - 1)
    }
}

impl<K: PiggyKey, V> Index<K> for PiggyVec<K, V> {
    type Output = V;

    #[inline]
    fn index(&self, key: K) -> &V {
        &self.values[key.place()]
    }
}

impl<K: PiggyKey, V> IndexMut<K> for PiggyVec<K, V> {
    #[inline]
    fn index_mut(&mut self, key: K) -> &mut V {
        &mut self.values[key.place()]
    }
}

pub mod ast {
    /// "`ast::is_exported` is taken as: first byte A to Z".
    #[inline]
    pub fn is_exported(name: &str) -> bool {
        name.bytes().next().is_some_and(|b| b.is_ascii_uppercase())
    }

    pub struct File;
}

pub struct AstObjects;

pub struct SourceFile;

pub struct Position;

pub struct ErrorList;

impl ErrorList {
    pub fn add(&self, _at: Position, _what: String, _soft: bool, _by_parser: bool) {}
}

pub struct FileSet;

impl FileSet {
    pub fn base(&self) -> usize {
        0
    }

    pub fn add_file(&mut self, _name: String, _base: Option<usize>, _size: usize) -> SourceFile {
        SourceFile
    }

    pub fn position(&self, _pos: Pos) -> Position {
        Position
    }
}

pub struct Parser;

impl Parser {
    pub fn new(
        _objects: &mut AstObjects,
        _file: &mut SourceFile,
        _errors: &ErrorList,
        _text: &str,
        _trace: bool,
    ) -> Parser {
        Parser
    }

    pub fn parse_file(&mut self) -> Option<ast::File> {
        None
    }
}
