//! Damage to flags and tables.

use crate::{broken, Rng};

/// Changes flags in one small way. The result may by chance be legal.
pub fn flags(rng: &mut Rng, flags: &mut Vec<u8>) {
    let at = rng.below(flags.len() + 1);
    match rng.below(6) {
        0 if at < flags.len() => flags[at] ^= 1,
        1 if at < flags.len() => flags[at] = rng.pick(&[2, 3, 128, 254, 255]),
        2 => flags.truncate(at),
        3 => flags.extend([0, 1, 2, 255].iter().cycle().skip(at % 4).take(1 + at % 5)),
        4 => flags.insert(at, rng.below(3) as u8),
        _ if at < flags.len() => drop(flags.remove(at)),
        _ => flags.push(0),
    }
}

/// Changes a table in one small way. The result may by chance be legal.
pub fn rows(rng: &mut Rng, rows: &mut Vec<u8>) {
    let count = rows.len() / 8;
    if count == 0 {
        rows.extend(rng.bytes(8));
        return;
    }
    let (row, other) = (rng.below(count), rng.below(count));
    match rng.below(9) {
        0 => rows[8 * row + rng.below(8)] ^= 1 << rng.below(8),
        1 => rows[8 * row + 4 + rng.below(4)] = rng.pick(&[0, 1, 2, 3, 6, 7, 8, 9, 255]),
        2 => *rows = broken::exchanged(rows, row, other),
        3 => rows.truncate(8 * row),
        4 => rows.truncate(8 * row + 1 + rng.below(7)),
        5 => rows.extend_from_within(8 * row..8 * row + 8),
        6 => rows.extend(vec![0; 1 + rng.below(8)]),
        7 => *rows = broken::left_out(rows, row),
        _ => shift_depth(rng, rows, row),
    }
}

/// Moves the depths of a run of rows, as if another split had been used above them.
fn shift_depth(rng: &mut Rng, rows: &mut [u8], from: usize) {
    let count = rows.len() / 8;
    let to = (from + 1 + rng.below(4)).min(count);
    let field = 6 + rng.below(2);
    let step = rng.pick(&[1, 255]);
    for row in from..to {
        let byte = &mut rows[8 * row + field];
        *byte = byte.wrapping_add(step);
    }
}
