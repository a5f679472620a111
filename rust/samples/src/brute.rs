//! The way back by brute force: every tree of a small unit, and where other tables leave them.
//!
//! It knows nothing of splits. It feeds a reader ever longer strings of flags, and learns from the
//! refusal 11 that the tree is not yet whole.

use std::collections::HashMap;

/// What a reader answers: 0 and the rows written, or a refusal's number and place.
pub type Answer = (u64, u64);

/// Every table of a unit, with the flags that give it.
pub type Trees = HashMap<Vec<u8>, Vec<u8>>;

/// Room for the rows of the largest unit.
const ROW_BYTES: usize = 8 * h266::MAX_ROWS;

/// All trees of the unit that `read` reads, or nothing where there are more than `limit`.
///
/// `read` gets flags and a row buffer and gives the answer of a unit's reader.
///
/// # Panics
///
/// Where two strings of flags give the same rows, or a reader refuses with another number than 11.
pub fn all_trees(limit: usize, mut read: impl FnMut(&[u8], &mut [u8]) -> Answer) -> Option<Trees> {
    let mut trees = Trees::new();
    let mut rows = vec![0; ROW_BYTES];
    let mut open = vec![Vec::new()];
    while let Some(flags) = open.pop() {
        match read(&flags, &mut rows) {
            (0, count) => {
                let table = rows[..8 * count as usize].to_vec();
                assert!(trees.insert(table, flags).is_none(), "two trees with the same rows");
            }
            (11, place) => {
                assert_eq!(place, flags.len() as u64, "flags end at their end");
                // The shorter trees first: the last string goes on.
                open.extend([1, 0].map(|flag| [flags.as_slice(), &[flag]].concat()));
            }
            other => panic!("{flags:?} answered {other:?}"),
        }
        if trees.len() + open.len() > limit {
            return None;
        }
    }
    Some(trees)
}

/// The tables of a unit in order.
pub fn tables(trees: &Trees) -> Vec<&[u8]> {
    let mut tables: Vec<&[u8]> = trees.keys().map(Vec::as_slice).collect();
    tables.sort_unstable();
    tables
}

/// The tables of a unit and every number of leading rows of each.
pub struct Beginnings<'a> {
    trees: &'a Trees,
    /// In order, so that the first one that is not before some rows begins with them, if any does.
    tables: Vec<&'a [u8]>,
}

impl<'a> Beginnings<'a> {
    /// The beginnings of these tables, the whole tables and the empty one among them.
    pub fn of(trees: &'a Trees) -> Self {
        Self { trees, tables: tables(trees) }
    }

    /// Does some table begin with these rows?
    pub fn has(&self, rows: &[u8]) -> bool {
        let from = self.tables.partition_point(|table| *table < rows);
        self.tables.get(from).is_some_and(|table| table.starts_with(rows))
    }

    /// Refusal 27, 28 or 16 of whole rows that are none of the tables, as document 02 says it.
    pub fn refusal(&self, rows: &[u8]) -> Answer {
        let leading = |count: usize| &rows[..8 * count];
        let count = rows.len() / 8;
        if self.has(rows) {
            return (27, count as u64);
        }
        if let Some(whole) = (0..count).find(|&whole| self.trees.contains_key(leading(whole))) {
            return (28, whole as u64);
        }
        let begun = (0..count).filter(|&begun| self.has(leading(begun)));
        (16, begun.max().expect("every table begins with no rows") as u64)
    }
}
