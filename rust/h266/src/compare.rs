//! Comparing two partitions of a unit, sample by sample, written from the paragraph that asks for it.

use crate::write::{write_flags, MAX_FLAGS};
use crate::{Answer, Row, Settings};

/// Says whether one of two tables of a unit is finer: whether every block of the other is a union of
/// its blocks.
///
/// Accepted: `(0, 0)` for equal blocks, `(0, 1)` where the first is finer, `(0, 2)` where the second
/// is, and `(0, 3)` where neither is. Refused: a number from 1 to 10, 15, 27, 28 or 16 and its place,
/// of the first table before the second.
///
/// ```
/// let settings = [64, 4, 8, 3, 32, 32, 64, 64];
/// let whole = [0, 0, 0, 0, 6, 6, 0, 0];
/// let quarter = |x, y| [x, 0, y, 0, 5, 5, 1, 0];
/// let quarters = [quarter(0, 0), quarter(32, 0), quarter(0, 32), quarter(32, 32)].concat();
/// assert_eq!(h266::compare(&settings, 0, &whole, &quarters), (0, 2));
/// ```
pub fn compare(settings: &Settings, address: u64, first: &[u8], second: &[u8]) -> Answer {
    for rows in [first, second] {
        match write_flags(settings, address, rows, &mut [0; MAX_FLAGS]) {
            (0, _) => (),
            refused => return refused,
        }
    }
    let [first, second] = [first, second].map(|rows| Samples::of(settings[0], rows));
    (0, answer(first.has_unions(&second), second.has_unions(&first)))
}

/// The answer, by whether every block of the second table is a union of the first's blocks, and the
/// other way round.
fn answer(first: bool, second: bool) -> u64 {
    match (first, second) {
        (true, true) => 0,
        (true, false) => 1,
        (false, true) => 2,
        (false, false) => 3,
    }
}

/// A unit's square, line by line, with the block that each sample lies in; none lies where the
/// picture does not reach.
struct Samples {
    side: usize,
    blocks: Vec<Option<Row>>,
    rows: Vec<Row>,
}

impl Samples {
    /// The blocks of a unit of this side, by the table of one of its trees.
    fn of(side: u32, table: &[u8]) -> Self {
        let side = side as usize;
        let rows: Vec<Row> = crate::rows(table).collect();
        let mut samples = Self { side, blocks: vec![None; side * side], rows };
        for row in &samples.rows {
            samples_of(row).for_each(|(x, y)| samples.blocks[place(side, x, y)] = Some(*row));
        }
        samples
    }

    /// Is every block of the other table a union of blocks of this one? Each of its samples then lies
    /// in one that lies inside it.
    fn has_unions(&self, other: &Self) -> bool {
        other.rows.iter().all(|block| {
            let mut blocks = samples_of(block).map(|(x, y)| self.blocks[place(self.side, x, y)]);
            blocks.all(|own| own.is_some_and(|own| lies_inside(&own, block)))
        })
    }
}

/// The samples of a block.
fn samples_of(block: &Row) -> impl Iterator<Item = (usize, usize)> {
    let (left, top) = (usize::from(block.x0), usize::from(block.y0));
    let (width, height) = (1 << block.log2_cb_width, 1 << block.log2_cb_height);
    (top..top + height).flat_map(move |y| (left..left + width).map(move |x| (x, y)))
}

/// A sample's place in the square of its unit, whose corner is a multiple of the side.
fn place(side: usize, x: usize, y: usize) -> usize {
    y % side * side + x % side
}

/// Are all samples of a block also the other's?
fn lies_inside(block: &Row, other: &Row) -> bool {
    let within = |start: u16, log2: u8, other_start: u16, other_log2: u8| {
        let end = |start: u16, log2: u8| u32::from(start) + (1 << log2);
        other_start <= start && end(start, log2) <= end(other_start, other_log2)
    };
    within(block.x0, block.log2_cb_width, other.x0, other.log2_cb_width)
        && within(block.y0, block.log2_cb_height, other.y0, other.log2_cb_height)
}
