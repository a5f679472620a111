//! One row of a table: a coding block.

/// A coding block with the depths at which it was reached.
///
/// ```
/// use colwythar::Row;
///
/// let row = Row::from_bytes(&[0x20, 0, 0, 1, 5, 3, 1, 2]);
/// assert_eq!((row.x, row.y), (32, 256));
/// assert_eq!((row.width(), row.height()), (32, 8));
/// assert_eq!((row.qt_depth, row.mtt_depth), (1, 2));
/// assert_eq!(row.to_bytes(), [0x20, 0, 0, 1, 5, 3, 1, 2]);
/// ```
#[derive(Clone, Copy, Debug, PartialEq, Eq, Hash)]
pub struct Row {
    /// Left edge, in samples.
    pub x: u16,
    /// Top edge, in samples.
    pub y: u16,
    /// Exponent of the width.
    pub width_exponent: u8,
    /// Exponent of the height.
    pub height_exponent: u8,
    /// How many quad splits lead here.
    pub qt_depth: u8,
    /// How many binary and ternary splits lead here.
    pub mtt_depth: u8,
}

impl Row {
    /// Reads a row's 8 bytes.
    #[inline]
    pub fn from_bytes(bytes: &[u8; 8]) -> Self {
        let [x0, x1, y0, y1, width_exponent, height_exponent, qt_depth, mtt_depth] = *bytes;
        Self {
            x: u16::from_le_bytes([x0, x1]),
            y: u16::from_le_bytes([y0, y1]),
            width_exponent,
            height_exponent,
            qt_depth,
            mtt_depth,
        }
    }

    /// The row's 8 bytes.
    #[inline]
    pub fn to_bytes(&self) -> [u8; 8] {
        let ([x0, x1], [y0, y1]) = (self.x.to_le_bytes(), self.y.to_le_bytes());
        let (width, height) = (self.width_exponent, self.height_exponent);
        [x0, x1, y0, y1, width, height, self.qt_depth, self.mtt_depth]
    }

    /// Width in samples; 0 where the exponent is above 31, which no engine row has.
    #[inline]
    pub fn width(&self) -> u32 {
        1u32.checked_shl(self.width_exponent.into()).unwrap_or(0)
    }

    /// Height in samples; 0 where the exponent is above 31, which no engine row has.
    #[inline]
    pub fn height(&self) -> u32 {
        1u32.checked_shl(self.height_exponent.into()).unwrap_or(0)
    }

    /// The pipeline unit of this side that the row's corner is in: how many there are to its left
    /// and above it.
    ///
    /// Rows of one pipeline unit follow each other in a unit's table, and in the tables of a session
    /// joined. So a table falls into groups, each of which is one whole pipeline unit, as far as it
    /// lies in the picture, or one row that consists of several.
    ///
    /// ```
    /// use colwythar::{read_unit, rows, Settings};
    ///
    /// // 128 by 128: the upper half as one row, the lower left quarter in halves, the last quarter.
    /// let settings = Settings::from([128, 4, 8, 3, 128, 64, 128, 128]);
    /// let mut table = [0; 8 * 4];
    /// let flags = [1, 0, 0, 0, 1, 1, 0, 1, 0];
    /// let count = read_unit(&settings, 0, &flags, &mut table)?;
    /// let blocks: Vec<_> = rows(&table[..8 * count]).collect();
    ///
    /// let side = settings.pipeline_side();
    /// let units = blocks.chunk_by(|a, b| a.pipeline_unit(side) == b.pipeline_unit(side));
    /// let groups: Vec<_> = units.map(|rows| (rows[0].pipeline_unit(side), rows.len())).collect();
    /// assert_eq!(groups, [((0, 0), 1), ((0, 1), 2), ((1, 1), 1)]);
    /// # Ok::<(), colwythar::Refusal>(())
    /// ```
    ///
    /// # Panics
    ///
    /// Where the side is 0, as no settings that pass have it.
    #[inline]
    pub fn pipeline_unit(&self, side: u32) -> (u32, u32) {
        (u32::from(self.x) / side, u32::from(self.y) / side)
    }
}

/// The rows of a table in order. Bytes after the last whole row are left out.
///
/// ```
/// let table = [0, 0, 0, 0, 5, 5, 1, 0, 32, 0, 0, 0, 5, 5, 1, 0];
/// let corners: Vec<_> = colwythar::rows(&table).map(|row| row.x).collect();
/// assert_eq!(corners, [0, 32]);
/// ```
pub fn rows(table: &[u8]) -> impl ExactSizeIterator<Item = Row> + '_ {
    let (rows, _) = table.as_chunks::<8>();
    rows.iter().map(Row::from_bytes)
}
