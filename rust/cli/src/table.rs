//! The rows of one unit, as the lines of a file give them.

use colwythar::Row;

/// How many rows a table has at most. No unit has more than 1,024; a table with more is given to the
/// engine as it is, so that the refusal is the engine's.
const MOST_ROWS: usize = 2048;

/// A run of rows of one unit, which the next other line ends.
#[derive(Default)]
pub struct Table {
    address: u64,
    /// The line of each row; between them there may be comments.
    lines: Vec<u64>,
    bytes: Vec<u8>,
}

impl Table {
    pub fn is_empty(&self) -> bool {
        self.lines.is_empty()
    }

    /// How many rows there are.
    pub fn len(&self) -> usize {
        self.lines.len()
    }

    /// Is a row of this unit the next row of the table?
    pub fn is_of(&self, address: u64) -> bool {
        !self.is_empty() && self.address == address
    }

    /// Adds a row; false where the table is full.
    pub fn push(&mut self, line: u64, address: u64, row: Row) -> bool {
        if self.len() == MOST_ROWS {
            return false;
        }
        self.address = address;
        self.lines.push(line);
        self.bytes.extend(row.to_bytes());
        true
    }

    pub fn address(&self) -> u64 {
        self.address
    }

    /// The first and the last line of a table that has rows.
    pub fn lines(&self) -> (u64, u64) {
        (self.lines[0], self.lines[self.len() - 1])
    }

    /// The line of a row, counted from 0.
    pub fn line_of(&self, row: u64) -> Option<u64> {
        self.lines.get(usize::try_from(row).ok()?).copied()
    }

    /// The rows, 8 bytes each.
    pub fn bytes(&self) -> &[u8] {
        &self.bytes
    }

    pub fn clear(&mut self) {
        self.lines.clear();
        self.bytes.clear();
    }
}
