//! The partition page: a unit's rows as lines of text, written from the paragraph that asks for it.

use std::io::Write;

use crate::write::{write_flags, MAX_FLAGS};
use crate::{Answer, Refusal, Settings};

/// Three columns of 6, two of 4, two of 3, and the line feed.
const LINE_BYTES: usize = 33;

/// Prints the rows of a unit, a line for each, where some tree gives them.
///
/// Accepted: `(0, bytes written)`. Refused: a number from 1 to 10, 15, 27, 28, 16 or 23 and its
/// place.
///
/// ```
/// let settings = [64, 4, 8, 3, 32, 32, 64, 64];
/// let mut page = [0; 33];
/// assert_eq!(h266::page(&settings, 0, &[0, 0, 0, 0, 6, 6, 0, 0], &mut page), (0, 33));
/// assert_eq!(page, *b"     0     0     0  64  64  0  0\n");
/// ```
pub fn page(settings: &Settings, address: u64, rows: &[u8], page: &mut [u8]) -> Answer {
    match write_flags(settings, address, rows, &mut [0; MAX_FLAGS]) {
        (0, _) => Refusal::answer(print(address, rows, page)),
        refused => refused,
    }
}

/// Prints the rows of a tree: refusal 23.
fn print(address: u64, rows: &[u8], page: &mut [u8]) -> Result<usize, Refusal> {
    let needed = LINE_BYTES * (rows.len() / 8);
    let mut lines = page.get_mut(..needed).ok_or(Refusal::new(23, needed))?;
    for row in crate::rows(rows) {
        let (x, y) = (row.x0, row.y0);
        let (width, height) = (1u32 << row.log2_cb_width, 1u32 << row.log2_cb_height);
        let (qt, mtt) = (row.cqt_depth, row.mtt_depth);
        writeln!(lines, "{address:>6}{x:>6}{y:>6}{width:>4}{height:>4}{qt:>3}{mtt:>3}")
            .expect("33 bytes a line");
    }
    Ok(needed)
}
