//! The board that takes a picture's rows, pipeline unit by pipeline unit.

use std::collections::HashMap;
use std::ops::Range;

use crate::Row;

/// A pipeline unit, by how many there are to its left and above it.
pub type PipelineUnit = (u32, u32);

/// Why the board can't work with a table.
#[derive(Clone, Copy, Debug, PartialEq, Eq)]
pub enum BoardFault {
    /// The next row lies elsewhere, or the table ends, and samples of this unit have not come.
    Missing(PipelineUnit),
    /// A row has samples of this unit that have come before.
    Again(PipelineUnit),
    /// A row reaches out of the picture.
    Outside,
}

/// What the board does with a table: the samples of a pipeline unit come row by row, and its
/// transform is started when the first row of the next one appears. After a fault it is of no use.
///
/// ```
/// use h266::{Board, BoardFault, Row};
///
/// // The left half of the first pipeline unit, then a row of the second one.
/// let half = Row::from_bytes([0, 0, 0, 0, 5, 6, 0, 1]);
/// let next = Row::from_bytes([64, 0, 0, 0, 6, 6, 0, 0]);
/// let mut board = Board::new(64, 128, 64);
/// assert_eq!(board.row(&half), Ok(()));
/// assert_eq!(board.row(&next), Err(BoardFault::Missing((0, 0))));
/// ```
#[derive(Clone, Debug)]
pub struct Board {
    side: u32,
    width: u32,
    height: u32,
    /// The units whose samples are coming: one, or all those of a row that reaches over several.
    coming: Vec<PipelineUnit>,
    /// Of each unit, which blocks have come.
    there: HashMap<PipelineUnit, Vec<bool>>,
}

/// Samples come in blocks of 4 by 4: all rows begin and end at multiples of 4.
const BLOCK: u32 = 4;

impl Board {
    /// The board before the first row of a picture, with pipeline units of this side, a multiple
    /// of 4.
    pub fn new(side: u32, width: u32, height: u32) -> Self {
        Self { side, width, height, coming: Vec::new(), there: HashMap::new() }
    }

    /// Takes the next row.
    pub fn row(&mut self, row: &Row) -> Result<(), BoardFault> {
        let (across, down) = self.extent(row).ok_or(BoardFault::Outside)?;
        let units = self.units(&across, &down);
        if units.len() > 1 || units != self.coming {
            self.start()?;
            self.coming = units;
        }
        for unit in &self.coming {
            let blocks = blocks(self.side, *unit, across.clone(), down.clone());
            let size = (self.side / BLOCK).pow(2) as usize;
            let there = self.there.entry(*unit).or_insert_with(|| vec![false; size]);
            for block in blocks {
                if std::mem::replace(&mut there[block], true) {
                    return Err(BoardFault::Again(*unit));
                }
            }
        }
        Ok(())
    }

    /// Starts the transform of the units whose samples were coming: they have to be there. For the
    /// first row of the next one [`Board::row`] calls it, after the last row the caller.
    pub fn start(&mut self) -> Result<(), BoardFault> {
        for unit in std::mem::take(&mut self.coming) {
            let there = &self.there[&unit];
            let mut needed = blocks(self.side, unit, 0..self.width, 0..self.height);
            if !needed.all(|block| there[block]) {
                return Err(BoardFault::Missing(unit));
            }
        }
        Ok(())
    }

    /// The columns and lines of a row, where it lies in the picture.
    fn extent(&self, row: &Row) -> Option<(Range<u32>, Range<u32>)> {
        let part = |start: u16, log2_length: u8, end: u32| {
            let start = u32::from(start);
            let length = 1u32.checked_shl(log2_length.into())?;
            (length <= end && start <= end - length).then(|| start..start + length)
        };
        let across = part(row.x0, row.log2_cb_width, self.width)?;
        Some((across, part(row.y0, row.log2_cb_height, self.height)?))
    }

    /// The units that have samples of these columns and lines.
    fn units(&self, across: &Range<u32>, down: &Range<u32>) -> Vec<PipelineUnit> {
        let numbers = |part: &Range<u32>| part.start / self.side..part.end.div_ceil(self.side);
        let columns = numbers(across);
        numbers(down).flat_map(|y| columns.clone().map(move |x| (x, y))).collect()
    }
}

/// The numbers of a unit's blocks, line by line from its corner, that lie in these columns and lines.
fn blocks(
    side: u32,
    (x, y): PipelineUnit,
    across: Range<u32>,
    down: Range<u32>,
) -> impl Iterator<Item = usize> {
    let inside = move |part: Range<u32>, number: u32| {
        let (first, end) = (number * side, (number + 1) * side);
        let part = part.start.max(first)..part.end.min(end);
        (part.start - first) / BLOCK..(part.end - first) / BLOCK
    };
    let columns = inside(across, x);
    let number = move |line, column| (line * (side / BLOCK) + column) as usize;
    inside(down, y).flat_map(move |line| columns.clone().map(move |column| number(line, column)))
}
