//! Where a table stops being a tree, written from document 02, R-5, and clauses 6.4.1 to 6.4.3.
//!
//! At each node the splits are tried that could lead to the next row. The first row below a node has
//! the node's corner. It has a greater cqtDepth exactly where the node has a quad split, as a quad
//! split comes before all others, and the node's own depths exactly where the node is a coding unit.
//!
//! A node that begins inside the picture has some coding tree. So rows that agree with a tree up to
//! a node are the beginning of a table, also where none of the node's trees goes on with them. The
//! rows of a whole tree of a node cover it, hence no other tree of it goes on after the same rows,
//! and the first one found is the only one.

use crate::{Allowed, Node, Params, Refusal, Row, Split};

/// The refusal of rows that no tree of this root gives.
///
/// 27: all of them are the beginning of a longer table; place: their number. 28: they begin with a
/// whole table and go on; place: its number of rows. 16: neither; place: the greatest number of
/// leading rows with which some table begins.
///
/// ```
/// let settings = [64, 4, 8, 3, 32, 32, 64, 64];
/// let (params, root) = h266::check::unit_root(&settings, 0).unwrap();
/// let quarter = [0, 0, 0, 0, 5, 5, 1, 0];
/// assert_eq!(h266::stop(&params, &root, &[quarter]), h266::Refusal { number: 27, place: 1 });
/// // The second quarter has another corner.
/// assert_eq!(h266::stop(&params, &root, &[quarter; 2]), h266::Refusal { number: 16, place: 1 });
/// ```
pub fn stop(params: &Params, root: &Node, rows: &[[u8; 8]]) -> Refusal {
    match (Search { params, rows }).coding_tree(root, 0) {
        Ok(end) => Refusal::new(28, end),
        Err(reached) if reached == rows.len() => Refusal::new(27, reached),
        Err(reached) => Refusal::new(16, reached),
    }
}

/// A search. It answers where the rows of a whole tree end, or else the greatest number of leading
/// rows that agree with some tree.
struct Search<'a> {
    params: &'a Params,
    rows: &'a [[u8; 8]],
}

impl Search<'_> {
    /// The coding trees of a node that begins inside the picture, beside the rows from `at` on.
    fn coding_tree(&self, node: &Node, at: usize) -> Result<usize, usize> {
        let row = Row::from_bytes(*self.rows.get(at).ok_or(at)?);
        if row == node.row() && self.params.inside(node) {
            return Ok(at + 1);
        }
        let allowed = Allowed::of(self.params, node);
        let mut reached = at;
        for split in Split::ALL {
            if !allowed.has(split) || !may_lead(node, split, &row) {
                continue;
            }
            match self.parts(node, split, at) {
                Ok(end) => return Ok(end),
                Err(here) => reached = reached.max(here),
            }
        }
        Err(reached)
    }

    /// The parts of a split, one after the other.
    fn parts(&self, node: &Node, split: Split, at: usize) -> Result<usize, usize> {
        let parts = node.parts(self.params, split);
        parts.iter().flatten().try_fold(at, |at, part| self.coding_tree(part, at))
    }
}

/// Can this be the first row below a node that is split so?
fn may_lead(node: &Node, split: Split, row: &Row) -> bool {
    let own = node.row();
    let quad = row.cqt_depth > own.cqt_depth;
    let other = row.cqt_depth == own.cqt_depth && row.mtt_depth > own.mtt_depth;
    let deeper = if split == Split::Qt { quad } else { other };
    deeper && (row.x0, row.y0) == (own.x0, own.y0)
}
