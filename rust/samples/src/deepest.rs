//! The unit with the deepest rows: 128 by 128, halved ten times, vertically and horizontally in
//! turn, each time the first half.

use h266::{Row, Settings};

/// The settings of its picture; its address is 0.
pub const SETTINGS: Settings = [128, 4, 8, 10, 128, 64, 128, 128];

/// X, Y, exponents of width and height, MTT depth.
const ROWS: [(u16, u16, u8, u8, u8); 11] = [
    (0, 0, 2, 2, 10),
    (0, 4, 2, 2, 10),
    (4, 0, 2, 3, 9),
    (0, 8, 3, 3, 8),
    (8, 0, 3, 4, 7),
    (0, 16, 4, 4, 6),
    (16, 0, 4, 5, 5),
    (0, 32, 5, 5, 4),
    (32, 0, 5, 6, 3),
    (0, 64, 6, 6, 2),
    (64, 0, 6, 7, 1),
];

/// Its rows.
pub fn rows() -> Vec<u8> {
    let bytes = |(x0, y0, log2_cb_width, log2_cb_height, mtt_depth)| {
        Row { x0, y0, log2_cb_width, log2_cb_height, cqt_depth: 0, mtt_depth }.to_bytes()
    };
    ROWS.into_iter().flat_map(bytes).collect()
}
