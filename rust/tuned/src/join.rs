//! Finds the binary and ternary splits of a run of rows.
//!
//! The rows of a node follow each other, and a row's multi-type depth says how often its branch was
//! split. So the nodes can be joined from below: the first two parts of a node show by their tops
//! in which direction it was cut, and by their sides whether there is a third part. The splits come
//! out in coding order. Nothing is checked here; whoever walks the tree again compares all rows.

use h266::{Split, MAX_ROWS};

use crate::block::Block;
use crate::write::Table;

/// From 128 by 128 down to 4 by 4 there are ten halvings.
const MAX_MTT_DEPTH: u8 = 10;

/// Every split has two parts at least; the rest is room for a branch that fails.
const MAX_SPLITS: usize = MAX_ROWS + MAX_MTT_DEPTH as usize;

/// The splits found, in coding order.
pub(crate) struct Splits {
    list: [Split; MAX_SPLITS],
    count: usize,
    next: usize,
}

impl Splits {
    pub(crate) const fn new() -> Self {
        Self { list: [Split::Qt; MAX_SPLITS], count: 0, next: 0 }
    }

    /// Finds the splits of the node of depth `mtt_depth` whose rows begin at `at`.
    pub(crate) fn find(&mut self, table: Table, at: usize, mtt_depth: u8) -> Option<()> {
        (self.count, self.next) = (0, 0);
        let mut at = at;
        self.join(table, &mut at, mtt_depth).map(|_| ())
    }

    /// The next split in coding order.
    #[inline(always)]
    pub(crate) fn take(&mut self) -> Option<Split> {
        let split = *self.list[..self.count].get(self.next)?;
        self.next += 1;
        Some(split)
    }

    /// Joins the rows from `at` on into one node of this depth. Rows of this depth are met here, so
    /// that only splits cost a call.
    #[inline(always)]
    fn join(&mut self, table: Table, at: &mut usize, mtt_depth: u8) -> Option<Block> {
        let row = table.row(*at)?;
        if row.mtt_depth() == mtt_depth {
            *at += 1;
            return Some(row);
        }
        if row.mtt_depth() < mtt_depth || row.mtt_depth() > MAX_MTT_DEPTH {
            return None;
        }
        self.join_parts(table, at, mtt_depth + 1)
    }

    /// Joins the parts of a node; they have this depth.
    fn join_parts(&mut self, table: Table, at: &mut usize, mtt_depth: u8) -> Option<Block> {
        let slot = self.count;
        self.count += 1;
        let first = self.join(table, at, mtt_depth)?;
        let second = self.join(table, at, mtt_depth)?;
        let vertical = first.y0() == second.y0();
        let binary = first.sides() == second.sides();
        if !binary {
            self.join(table, at, mtt_depth)?;
        }
        self.list[slot] = Split::mtt(vertical, binary);
        Some(first.joined(vertical, binary))
    }
}
