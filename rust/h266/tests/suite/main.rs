//! Tests of the second decoder; they need no engine.

mod bank;
mod board;
mod compare;
mod exhaustive;
mod page;
mod paper;
mod pipeline;
mod random;
mod stop;
mod worth;

use h266::Row;

/// A row at this corner, with the exponents of its sides.
fn row(x0: u16, y0: u16, log2_cb_width: u8, log2_cb_height: u8) -> Row {
    Row { x0, y0, log2_cb_width, log2_cb_height, cqt_depth: 0, mtt_depth: 0 }
}
