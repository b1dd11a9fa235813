//! The documents of the repository, and the fenced blocks in them.

// Each test takes what it needs.
#![allow(dead_code)]

use std::fs;
use std::path::Path;

/// The words that may stand behind an opening fence, so that a slip in one is no example lost.
const KINDS: [&str; 10] = [
    "typeask", "tidied", "prints", "console", "rust", "toml", "c", "go", "sh", "text",
];

/// A fenced block, and the number of its first line in the document.
pub struct Block<'a> {
    pub kind: &'a str,
    pub lines: Vec<&'a str>,
    pub first: usize,
    /// Whether nothing but empty lines stands between it and the block before.
    pub follows: bool,
}

/// The fenced blocks of a document.
pub fn blocks(text: &str) -> Vec<Block<'_>> {
    let mut blocks: Vec<Block> = Vec::new();
    let (mut open, mut follows) = (false, false);
    for (line, n) in text.lines().zip(1..) {
        match line.strip_prefix("```") {
            Some("") if open => (open, follows) = (false, true),
            Some(kind) if !open => {
                assert!(KINDS.contains(&kind), "line {n}: no kind of block: {line}");
                blocks.push(Block {
                    kind,
                    lines: Vec::new(),
                    first: n + 1,
                    follows,
                });
                open = true;
            }
            _ if open => blocks.last_mut().expect("an open block").lines.push(line),
            _ => follows = follows && line.is_empty(),
        }
    }
    assert!(!open, "the last block has no end");
    blocks
}

/// A file of the repository, by its path from the root.
pub fn read(path: &str) -> String {
    let root = Path::new(env!("CARGO_MANIFEST_DIR")).join("..");
    fs::read_to_string(root.join(path)).unwrap_or_else(|e| panic!("{path}: {e}"))
}

/// The only block of a kind in a document, as a text.
pub fn only(document: &str, kind: &str) -> String {
    let mut texts = texts(document, kind);
    assert_eq!(texts.len(), 1, "blocks {kind} in {document}");
    texts.remove(0)
}

/// The first block of a kind in a document, as a text.
pub fn first(document: &str, kind: &str) -> String {
    let first = texts(document, kind).into_iter().next();
    first.unwrap_or_else(|| panic!("no block {kind} in {document}"))
}

/// The blocks of a kind in a document, as texts.
fn texts(document: &str, kind: &str) -> Vec<String> {
    let text = read(document);
    let blocks = blocks(&text).into_iter().filter(|block| block.kind == kind);
    blocks.map(|block| block.lines.join("\n") + "\n").collect()
}
