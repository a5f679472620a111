//! Finds the binary and ternary splits of a run of rows.
//!
//! The rows of a node follow each other, and a row's multi-type depth says how often its branch was
//! split. So the nodes can be joined from below: the first two parts of a node show by their tops
//! in which direction it was cut, and by their sides whether there is a third part. The splits come
//! out in coding order. Nothing is checked here; whoever walks the tree again compares all rows.

use crate::{Row, Split, MAX_ROWS};

/// From 128 by 128 down to 4 by 4 there are ten halvings.
const MAX_MTT_DEPTH: u8 = 10;

/// Every split has two parts at least; the rest is room for a branch that fails.
const MAX_SPLITS: usize = MAX_ROWS + MAX_MTT_DEPTH as usize;

/// The splits found, in coding order.
pub(crate) struct Splits {
    list: [Split; MAX_SPLITS],
    count: usize,
    next: usize,
}

impl Splits {
    pub(crate) const fn new() -> Self {
        Self { list: [Split::Qt; MAX_SPLITS], count: 0, next: 0 }
    }

    /// Forgets all splits.
    pub(crate) fn clear(&mut self) {
        (self.count, self.next) = (0, 0);
    }

    /// The next split in coding order. Where none is left, the rows begin with those of a node of
    /// this depth, whose splits are found first.
    pub(crate) fn take(&mut self, rows: &[[u8; 8]], mtt_depth: u8) -> Option<Split> {
        if self.next == self.count {
            self.clear();
            self.join(&mut rows.iter(), mtt_depth)?;
        }
        let split = *self.list[..self.count].get(self.next)?;
        self.next += 1;
        Some(split)
    }

    /// Joins the next rows into one node of this depth.
    fn join(&mut self, rows: &mut Rows, mtt_depth: u8) -> Option<Row> {
        let first = Row::from_bytes(*rows.as_slice().first()?);
        if first.mtt_depth == mtt_depth {
            rows.next();
            return Some(first);
        }
        if first.mtt_depth < mtt_depth || first.mtt_depth > MAX_MTT_DEPTH {
            return None;
        }
        self.join_parts(rows, mtt_depth + 1)
    }

    /// Joins the parts of a node; they have this depth.
    fn join_parts(&mut self, rows: &mut Rows, mtt_depth: u8) -> Option<Row> {
        let slot = self.count;
        self.count += 1;
        let first = self.join(rows, mtt_depth)?;
        let second = self.join(rows, mtt_depth)?;
        let vertical = first.y0 == second.y0;
        let binary = first.log2_sides() == second.log2_sides();
        if !binary {
            self.join(rows, mtt_depth)?;
        }
        self.list[slot] = Split::mtt(vertical, binary);
        Some(whole(first, vertical, binary))
    }
}

/// The rows that are not yet joined.
type Rows<'a> = std::slice::Iter<'a, [u8; 8]>;

/// The node whose first part this is; its y0 and sides are right.
fn whole(first: Row, vertical: bool, binary: bool) -> Row {
    let halvings = if binary { 1 } else { 2 };
    if vertical {
        Row { log2_cb_width: first.log2_cb_width.wrapping_add(halvings), ..first }
    } else {
        Row { log2_cb_height: first.log2_cb_height.wrapping_add(halvings), ..first }
    }
}
