//! The accepted examples of document 01, P1 to P7, written down by hand.

use h266::{Row, Settings};

/// Setting A.
pub const A: Settings = [64, 4, 8, 3, 32, 32, 64, 64];

/// An accepted unit.
#[derive(Clone, Debug)]
pub struct Example {
    /// The settings.
    pub settings: Settings,
    /// The unit's address.
    pub address: u64,
    /// Its flags.
    pub flags: &'static [u8],
    /// Its rows.
    pub rows: Vec<u8>,
}

/// X, Y, exponents of width and height, QT depth, MTT depth.
type Fields = (u16, u16, u8, u8, u8, u8);

const P2: [Fields; 4] =
    [(0, 0, 5, 5, 1, 0), (32, 0, 5, 5, 1, 0), (0, 32, 5, 5, 1, 0), (32, 32, 5, 5, 1, 0)];
const P3: [Fields; 3] = [(0, 0, 3, 5, 1, 1), (8, 0, 4, 5, 1, 1), (24, 0, 3, 5, 1, 1)];
const P4: [Fields; 3] = [(8, 0, 2, 5, 1, 2), (12, 0, 3, 5, 1, 2), (20, 0, 2, 5, 1, 2)];
const P5: [Fields; 4] =
    [(64, 0, 3, 5, 1, 2), (64, 32, 3, 4, 2, 1), (64, 48, 3, 3, 3, 0), (64, 56, 3, 3, 3, 0)];
const P6: [Fields; 3] = [(0, 0, 7, 6, 0, 1), (0, 64, 6, 6, 0, 2), (64, 64, 6, 6, 0, 2)];

/// P1 to P7.
pub fn examples() -> [Example; 7] {
    let a72 = [64, 4, 8, 3, 32, 32, 72, 64];
    let p6 = [128, 4, 8, 3, 128, 64, 128, 128];
    let p7 = [32, 4, 32, 0, 32, 32, 32, 32];
    [
        example(A, 0, &[0], &[&[(0, 0, 6, 6, 0, 0)]]),
        example(A, 0, &[1, 0, 0, 0, 0], &[&P2]),
        example(A, 0, &[1, 1, 0, 1, 0, 0, 0, 0, 0, 0, 0], &[&P3, &P2[1..]]),
        example(
            A,
            0,
            &[1, 1, 0, 1, 0, 0, 1, 1, 0, 0, 0, 0, 0, 0, 0],
            &[&P3[..1], &P4, &P3[2..], &P2[1..]],
        ),
        example(a72, 1, &[0, 0, 1, 0, 0, 1, 0, 0], &[&P5]),
        example(p6, 0, &[1, 0, 0, 0, 1, 0, 0], &[&P6]),
        example(p7, 0, &[], &[&[(0, 0, 5, 5, 0, 0)]]),
    ]
}

fn example(settings: Settings, address: u64, flags: &'static [u8], rows: &[&[Fields]]) -> Example {
    let rows = rows.concat().into_iter().flat_map(bytes).collect();
    Example { settings, address, flags, rows }
}

fn bytes(fields: Fields) -> [u8; 8] {
    let (x0, y0, log2_cb_width, log2_cb_height, cqt_depth, mtt_depth) = fields;
    Row { x0, y0, log2_cb_width, log2_cb_height, cqt_depth, mtt_depth }.to_bytes()
}
