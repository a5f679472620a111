//! The hardest broken table that was found: the engine's search for where it stops being a tree
//! enters 19,256 nodes.
//!
//! A unit of 128 by 128 is halved vertically and its halves horizontally, into quarters of 256 blocks
//! of 4 by 4, and the last row is broken. The first quarter would come first after a horizontal cut,
//! too, so it is gone through twice. Below, the cuts of three quarters are such that other cuts, which
//! are tried before, begin alike and fail late; in the last quarter no node around its end is whole,
//! and all cuts are tried there. It was found by random changes; `bench search` makes such changes,
//! and from nothing comes near to it within a minute.

use h266::{read_unit, Settings, MAX_ROWS};

use crate::{broken, deepest};

/// The settings of its picture; its address is 0.
pub const SETTINGS: Settings = deepest::SETTINGS;

/// The flags of the first three quarters.
const QUARTER: &str = "\
    110111101101101111111111111111111100111110111111111111111111111111111111111111111111111111\
    111111110010111111111111111111111111111111111111111111111111111110111111111111111111111110\
    011111111111110111111111111111111111111111111001111101111111111101111111111101111111111111\
    111111111111111111111001011111111111111111111111101111111111111011111111111111111111111111\
    111110111111111111111111";

/// The flags of the last quarter.
const LAST: &str = "\
    101111100111111111111111111111111111011111111111011111111111111111111111111111111111111111\
    111111111111111111001111111111111111111111111110111111111110111111111111111111111111111111\
    111111111111111111111111111111110011111111111111111111111111101111111111101111111111111111\
    111111111111111111111111111111111111111111101110111111111110111111111111111111111111111111\
    11110111111111111111111111111111111111111111111111111111";

/// Its rows.
///
/// # Panics
///
/// Never: the flags are those of a tree.
pub fn rows() -> Vec<u8> {
    let digits = ["1011", QUARTER, QUARTER, "1", QUARTER, LAST].concat();
    let flags: Vec<u8> = digits.bytes().map(|digit| digit - b'0').collect();
    let mut rows = vec![0; 8 * MAX_ROWS];
    let answer = read_unit(&SETTINGS, 0, &flags, &mut rows);
    assert_eq!(answer, (0, MAX_ROWS as u64), "the flags of a tree");
    broken::at_end(&rows)
}
