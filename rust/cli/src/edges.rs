//! The edges of a unit's blocks.

use std::collections::BTreeSet;

/// All blocks begin and end at multiples of 4.
const STEP: u32 = 4;

/// Edges in pieces of 4 samples, in order: first horizontal ones, then vertical ones, line by line.
pub type Edges = BTreeSet<Piece>;

/// A piece of an edge.
#[derive(Clone, Copy, PartialEq, Eq, PartialOrd, Ord)]
pub struct Piece {
    vertical: bool,
    /// The line that it lies on: its y where it is horizontal, its x where it is vertical.
    line: u32,
    /// Where it begins on this line.
    from: u32,
}

/// The edges of the blocks of a table, its outer ones among them.
pub fn of_table(table: &[u8]) -> Edges {
    let mut edges = Edges::new();
    for row in colwythar::rows(table) {
        let (x, y) = (u32::from(row.x), u32::from(row.y));
        let (right, bottom) = (x + row.width(), y + row.height());
        for line in [y, bottom] {
            let pieces = (x..right).step_by(STEP as usize);
            edges.extend(pieces.map(|from| Piece { vertical: false, line, from }));
        }
        for line in [x, right] {
            let pieces = (y..bottom).step_by(STEP as usize);
            edges.extend(pieces.map(|from| Piece { vertical: true, line, from }));
        }
    }
    edges
}

/// Edges as the commands of a path in SVG, pieces that follow each other joined.
pub fn path(edges: &Edges) -> String {
    let mut path = String::new();
    let mut pieces = edges.iter().peekable();
    while let Some(&Piece { vertical, line, from }) = pieces.next() {
        let mut end = from + STEP;
        while pieces.next_if_eq(&&Piece { vertical, line, from: end }).is_some() {
            end += STEP;
        }
        path += &if vertical {
            format!("M{line} {from}V{end}")
        } else {
            format!("M{from} {line}H{end}")
        };
    }
    path
}
