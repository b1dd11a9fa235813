//! The files of questions that paths name.

use std::ffi::OsString;
use std::fs;
use std::path::{Path, PathBuf};

/// The files X.in of a path: itself, or those of a folder in the order of their names.
pub fn of(path: &Path) -> Result<Vec<PathBuf>, String> {
    if !path.is_dir() {
        let file = is_questions(path).then(|| vec![path.to_owned()]);
        return file.ok_or_else(|| format!("{}: neither a folder nor a file X.in", path.display()));
    }
    let mut files = within(path).map_err(|error| format!("{}: {error}", path.display()))?;
    if files.is_empty() {
        return Err(format!("{}: no file X.in in this folder", path.display()));
    }
    files.sort_by_cached_key(|file| in_order(file));
    Ok(files)
}

fn is_questions(path: &Path) -> bool {
    path.extension() == Some("in".as_ref())
}

fn within(folder: &Path) -> std::io::Result<Vec<PathBuf>> {
    let entries = fs::read_dir(folder)?.map(|entry| entry.map(|entry| entry.path()));
    let mut paths = entries.collect::<Result<Vec<PathBuf>, _>>()?;
    paths.retain(|path| is_questions(path) && !path.is_dir());
    Ok(paths)
}

/// Digits that a number in a name is filled up to.
const WIDTH: usize = 20;

/// What orders a file among others: its name with each number filled up by zeros, so that `x.2.in` comes before
/// `x.10.in`; where that is the same, the name.
fn in_order(file: &Path) -> (String, OsString) {
    let name = file.file_name().unwrap_or_default();
    let (mut filled, mut number) = (String::new(), String::new());
    for c in name.to_string_lossy().chars() {
        if c.is_ascii_digit() {
            number.push(c);
            continue;
        }
        if !number.is_empty() {
            filled += &format!("{number:0>WIDTH$}");
            number.clear();
        }
        filled.push(c);
    }
    (filled, name.to_owned())
}
