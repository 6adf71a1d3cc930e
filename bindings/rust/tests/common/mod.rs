//! What several tests use.
#![allow(dead_code)] // each test is a program of its own, and not each uses all
use std::fs;
use std::path::Path;
use vealtikum::Table;

/// A file of the program `replay`.
pub fn file(name: &str) -> Vec<u8> {
    let path = Path::new(env!("CARGO_MANIFEST_DIR")).join("../../crates/replay").join(name);
    fs::read(&path).unwrap_or_else(|why| panic!("{}: {why}", path.display()))
}

/// Each source stands behind its length, four bytes with the lowest first.
pub fn sources(list: &[u8]) -> Vec<&[u8]> {
    let (mut rest, mut found) = (list, Vec::new());
    while let Some(head) = rest.get(..4) {
        let end = 4 + u32::from_le_bytes(head.try_into().unwrap()) as usize;
        found.push(&rest[4..end]);
        rest = &rest[end..];
    }
    assert!(rest.is_empty());
    found
}

/// A table's tree has each record once, with children inside their parents and in order.
pub fn assert_tree(table: Table<'_>) {
    let mut seen = vec![false; table.len()];
    for (depth, node) in table.walk() {
        assert!(!std::mem::replace(&mut seen[node.index()], true));
        assert_eq!(depth == 0, node.index() == table.root().index());
        assert_eq!(node.count(), 1 + node.children().map(|child| child.count()).sum::<usize>());
        let mut end = node.span().start;
        for child in node.children() {
            assert!(end <= child.span().start && child.span().end <= node.span().end);
            end = child.span().end;
        }
        assert_eq!(node.text().is_some(), matches!(node.kind().number(), 6 | 9));
        assert_eq!(node.text(), node.text_str().map(str::as_bytes));
    }
    assert!(seen.iter().all(|&s| s));
    assert_eq!(table.root().span(), 0..table.source().len());
}
