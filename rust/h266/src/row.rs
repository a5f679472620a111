//! One row of a table.

/// A coding unit, as a table's 8 bytes say it.
#[derive(Clone, Copy, Debug, PartialEq, Eq)]
pub struct Row {
    /// Left edge.
    pub x0: u16,
    /// Top edge.
    pub y0: u16,
    /// Exponent of cbWidth.
    pub log2_cb_width: u8,
    /// Exponent of cbHeight.
    pub log2_cb_height: u8,
    /// cqtDepth.
    pub cqt_depth: u8,
    /// mttDepth.
    pub mtt_depth: u8,
}

impl Row {
    /// A row of zeros.
    pub(crate) const ZERO: Self = Self::from_bytes([0; 8]);

    /// Reads a row's bytes; corners have their low byte first.
    #[inline]
    pub const fn from_bytes(bytes: [u8; 8]) -> Self {
        let [x0, x1, y0, y1, log2_cb_width, log2_cb_height, cqt_depth, mtt_depth] = bytes;
        let (x0, y0) = (u16::from_le_bytes([x0, x1]), u16::from_le_bytes([y0, y1]));
        Self { x0, y0, log2_cb_width, log2_cb_height, cqt_depth, mtt_depth }
    }

    /// The row's bytes.
    #[inline]
    pub const fn to_bytes(self) -> [u8; 8] {
        let ([x0, x1], [y0, y1]) = (self.x0.to_le_bytes(), self.y0.to_le_bytes());
        let (width, height) = (self.log2_cb_width, self.log2_cb_height);
        [x0, x1, y0, y1, width, height, self.cqt_depth, self.mtt_depth]
    }

    /// The exponents of both sides.
    #[inline]
    pub(crate) const fn log2_sides(self) -> (u8, u8) {
        (self.log2_cb_width, self.log2_cb_height)
    }
}

/// The rows of a table in order. Bytes after the last whole row are left out.
///
/// ```
/// let table = [0, 0, 0, 0, 5, 5, 1, 0, 32, 0, 0, 0, 5, 5, 1, 0];
/// let edges: Vec<_> = h266::rows(&table).map(|row| row.x0).collect();
/// assert_eq!(edges, [0, 32]);
/// ```
pub fn rows(table: &[u8]) -> impl Iterator<Item = Row> + '_ {
    table.as_chunks().0.iter().map(|bytes| Row::from_bytes(*bytes))
}
