//! A node of the coding quad tree.

/// The arguments of one coding_quadtree( ) call.
#[derive(Clone, Copy, Debug, PartialEq, Eq)]
pub struct Node {
    /// Left edge.
    pub x0: u32,
    /// Top edge.
    pub y0: u32,
    /// log2CbSize.
    pub log2_cb_size: u32,
    /// cqtDepth.
    pub cqt_depth: u32,
}

impl Node {
    /// The bytes of its row as a coding unit: X and Y, low byte first, the exponent of the side twice,
    /// the quad depth, and no multi-type depth.
    #[inline]
    pub fn row(&self) -> [u8; 8] {
        // Corners are below 16,384, exponents and depths below 7.
        let [x, y] = [self.x0, self.y0].map(|corner| (corner as u16).to_le_bytes());
        let (side, depth) = (self.log2_cb_size as u8, self.cqt_depth as u8);
        [x[0], x[1], y[0], y[1], side, side, depth, 0]
    }
}
