//! Rows to flags, by a scan of the unit.
//!
//! A row fits where it is the row of a node that begins at the scan's place and lies in the picture.
//! Rows that fit, one after the other, are the beginning of a table: the nodes around them are split,
//! as some row before lies in them and is smaller, or as they begin at the row and are larger; and what
//! is not reached yet may be split in any way. And no table goes on with a row that does not fit. So the
//! number of leading rows that fit is the place of 16; where none is left, and the scan is not over, they
//! are a beginning, 27; and where the scan is over, and some are left, a whole table that goes on, 28.

use crate::refusal::answer;
use crate::scan::Scan;
use crate::{Answer, Node, Params, Refusal, Settings, MAX_FLAGS};

/// Writes the flags that give exactly these rows.
///
/// Accepted: `(0, flags written)`. Refused: 34, 35, 7, 8, 10, 15, 27, 28, 16 or 17 and its place.
pub fn write_flags(settings: &Settings, address: u64, rows: &[u8], flags: &mut [u8]) -> Answer {
    let written = Params::of_unit(settings, address)
        .and_then(|(params, root)| write_tree(&params, &root, rows, flags));
    answer(written)
}

/// Writes the flags of the tree under a root: refusals 15, 27, 28, 16 and 17.
fn write_tree(
    params: &Params,
    root: &Node,
    rows: &[u8],
    flags: &mut [u8],
) -> Result<usize, Refusal> {
    let (rows, rest) = rows.as_chunks::<8>();
    if !rest.is_empty() {
        return Err(Refusal::at(15, rows.len()));
    }
    let mut writer = Writer { params, flags: [0; MAX_FLAGS], count: 0 };
    let mut scan = Scan::new(params, root);
    for (place, row) in rows.iter().enumerate() {
        if scan.is_over() {
            return Err(Refusal::at(28, place));
        }
        let log2_cb_size = fitting(params, &scan, row).ok_or(Refusal::at(16, place))?;
        writer.block(&scan, log2_cb_size);
        scan.pass(log2_cb_size);
    }
    if !scan.is_over() {
        return Err(Refusal::at(27, rows.len()));
    }
    let found = &writer.flags[..writer.count];
    let lent = flags.get_mut(..found.len()).ok_or(Refusal::at(17, found.len()))?;
    lent.copy_from_slice(found);
    Ok(found.len())
}

/// The size of the node whose row this is, where it may be the next one.
#[inline]
fn fitting(params: &Params, scan: &Scan<'_>, row: &[u8; 8]) -> Option<u32> {
    let log2_cb_size = u32::from(row[4]);
    if !(params.min_cb_log2_size_y..=scan.largest()).contains(&log2_cb_size) {
        return None;
    }
    let node = scan.node(log2_cb_size);
    (params.inside(&node) && node.row() == *row).then_some(log2_cb_size)
}

/// The flags so far. They wait here until the whole table is accepted.
struct Writer<'a> {
    params: &'a Params,
    flags: [u8; MAX_FLAGS],
    count: usize,
}

impl Writer<'_> {
    /// The flags of all nodes that begin here and are met before the next row: those that are larger
    /// than its block are split, and the block is not.
    #[inline]
    fn block(&mut self, scan: &Scan<'_>, log2_cb_size: u32) {
        for larger in (log2_cb_size + 1..=scan.largest()).rev() {
            if self.params.inside(&scan.node(larger)) {
                self.split_cu_flag(1);
            }
        }
        if log2_cb_size > self.params.min_cb_log2_size_y {
            self.split_cu_flag(0);
        }
    }

    #[inline]
    fn split_cu_flag(&mut self, value: u8) {
        self.flags[self.count] = value;
        self.count += 1;
    }
}
