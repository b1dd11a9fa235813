//! Stands in for goscript's checker: the hold on the objects that `missing_method` takes. "Declarations
//! are taken as complete, so `obj_decl` does nothing."

use crate::goscript::importer::{ImportKey, SourceRead, TraceConfig};
use crate::goscript::objects::{ObjKey, PackageKey, TCObjects, TypeKey};
use go_parser::{ast, AstObjects, ErrorList, FileSet, Map};
use std::io;
use std::marker::PhantomData;
use std::path::{Path, PathBuf};

pub struct DeclInfo;

pub struct TypeInfo;

pub struct FilesContext<S: SourceRead>(PhantomData<S>);

pub struct Checker<'a, S: SourceRead> {
    pub tc_objs: &'a mut TCObjects,
    source: PhantomData<S>,
}

impl<'a, S: SourceRead> Checker<'a, S> {
    /// The checker as importer.rs makes it.
    #[allow(clippy::too_many_arguments)]
    pub fn new(
        tc_objs: &'a mut TCObjects,
        _ast_objs: &mut AstObjects,
        _fset: &mut FileSet,
        _errors: &ErrorList,
        _pkgs: &mut Map<String, PackageKey>,
        _all_results: &mut Map<PackageKey, TypeInfo>,
        _pkg: PackageKey,
        _trace_config: &TraceConfig,
        _reader: &S,
    ) -> Self {
        Checker {
            tc_objs,
            source: PhantomData,
        }
    }

    pub fn check(&mut self, _files: Vec<ast::File>) -> Result<PackageKey, ()> {
        Err(())
    }

    pub fn obj_decl(
        &mut self,
        _okey: ObjKey,
        _def: Option<TypeKey>,
        _context: &mut FilesContext<S>,
    ) {
    }
}

impl<'a> Checker<'a, NoSource> {
    /// A checker of these objects that has no source text, and the context to call it with.
    pub fn of(tc_objs: &'a mut TCObjects) -> (Self, FilesContext<NoSource>) {
        let checker = Checker {
            tc_objs,
            source: PhantomData,
        };
        (checker, FilesContext(PhantomData))
    }
}

/// The source text of a table: there is none.
pub enum NoSource {}

impl SourceRead for NoSource {
    fn working_dir(&self) -> &Path {
        match *self {}
    }

    fn base_dir(&self) -> Option<&Path> {
        match *self {}
    }

    fn read_file(&self, _path: &Path) -> io::Result<String> {
        match *self {}
    }

    fn read_dir(&self, _path: &Path) -> io::Result<Vec<PathBuf>> {
        match *self {}
    }

    fn is_file(&self, _path: &Path) -> bool {
        match *self {}
    }

    fn is_dir(&self, _path: &Path) -> bool {
        match *self {}
    }

    fn canonicalize_import(&self, _key: &ImportKey) -> io::Result<(PathBuf, String)> {
        match *self {}
    }
}
