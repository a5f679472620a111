//! The units with the most flags, by their rows and by their CTU side.
//!
//! A node that is halved has a split flag, a vertical and a binary one; above all cuts it has a quad
//! flag too, which comes second.

use h266::Settings;

/// A unit at the address 0, its flags, and how many rows they give.
#[derive(Clone, Debug)]
pub struct Longest {
    /// The settings of its picture.
    pub settings: Settings,
    /// Its flags.
    pub flags: Vec<u8>,
    /// The number of its rows.
    pub rows: usize,
}

/// A unit of so many rows, 1 to 64, with 4 flags for each, less 2.
pub fn of_rows(rows: usize) -> Longest {
    if rows == 1 {
        // Half as wide as the unit: no quad split, then no split.
        return Longest { settings: [64, 4, 8, 3, 64, 32, 32, 64], flags: vec![0, 0], rows };
    }
    let flags = with_quad(halved(&[0], 6, rows));
    Longest { settings: [64, 4, 8, 8, 64, 64, 64, 64], flags, rows }
}

/// A unit in blocks of 8 by 4; with CTU side 128, four quarters in such blocks.
pub fn of_ctu(ctu: u32) -> Longest {
    let rows = (ctu * ctu / 32) as usize;
    let largest = ctu.min(64);
    let settings = [ctu, 4, 8, 2 * (largest.ilog2() - 2), ctu, largest, ctu, ctu];
    // A node of 8 by 8 in two blocks: a split and a vertical flag, and a split flag for each block.
    let cuts = 2 * (largest.ilog2() - 3);
    let square = with_quad(halved(&[1, 0, 0, 0], cuts, 1 << cuts));
    let flags = if ctu == 128 { [vec![1, 1], square.repeat(4)].concat() } else { square };
    Longest { settings, flags, rows }
}

/// The flags of a node below a cut that becomes so many parts by at most so many cuts, the last one
/// horizontal, and the last parts with these flags.
fn halved(last: &[u8], cuts: u32, parts: usize) -> Vec<u8> {
    if cuts == 0 {
        return last.to_vec();
    }
    if parts == 1 {
        return vec![0];
    }
    let vertical = ((cuts + 1) % 2) as u8;
    let halves = [parts.div_ceil(2), parts / 2].map(|parts| halved(last, cuts - 1, parts));
    [vec![1, vertical, 1], halves.concat()].concat()
}

fn with_quad(mut flags: Vec<u8>) -> Vec<u8> {
    flags.insert(1, 0);
    flags
}
