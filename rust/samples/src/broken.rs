//! Every table of whole rows that one small change makes of another. Some may by chance be legal.

/// The first rows of the table, from none to all but one.
pub fn cut(rows: &[u8]) -> Vec<Vec<u8>> {
    (0..rows.len()).step_by(8).map(|end| rows[..end].to_vec()).collect()
}

/// The table with one more row at its end: each of its own, zeros, or the greatest numbers.
pub fn longer(rows: &[u8]) -> Vec<Vec<u8>> {
    let more = [&[0; 8], &[255; 8]].into_iter().map(|row| &row[..]).chain(rows.chunks(8));
    more.map(|row| [rows, row].concat()).collect()
}

/// The table with another height in its last row.
pub fn at_end(rows: &[u8]) -> Vec<u8> {
    let mut table = rows.to_vec();
    let height = table.len() - 3;
    table[height] += 1;
    table
}

/// The table without this row.
pub fn left_out(rows: &[u8], row: usize) -> Vec<u8> {
    [&rows[..8 * row], &rows[8 * (row + 1)..]].concat()
}

/// The table with this row twice.
pub fn twice(rows: &[u8], row: usize) -> Vec<u8> {
    [&rows[..8 * (row + 1)], &rows[8 * row..]].concat()
}

/// The table with two rows exchanged.
pub fn exchanged(rows: &[u8], row: usize, other: usize) -> Vec<u8> {
    let mut table = rows.to_vec();
    (0..8).for_each(|byte| table.swap(8 * row + byte, 8 * other + byte));
    table
}

/// The table with each row left out, each row twice, and each two rows exchanged.
pub fn moved(rows: &[u8]) -> Vec<Vec<u8>> {
    let moved = |row| {
        let exchanged = (0..row).map(move |other| exchanged(rows, row, other));
        [left_out(rows, row), twice(rows, row)].into_iter().chain(exchanged)
    };
    (0..rows.len() / 8).flat_map(moved).collect()
}

/// The table with a row changed in each of several ways.
pub fn changed(rows: &[u8], row: usize) -> Vec<Vec<u8>> {
    let changes = CHANGES.iter().map(|change| {
        let mut table = rows.to_vec();
        for &(byte, step) in *change {
            let byte = &mut table[8 * row + byte];
            *byte = byte.wrapping_add(step);
        }
        table
    });
    changes.collect()
}

/// What is added to which bytes of a row: sides and depths one up or down, corners elsewhere, and
/// rows that other splits would give.
const CHANGES: [&[(usize, u8)]; 18] = [
    &[(0, 4)],
    &[(0, 252)],
    &[(1, 1)],
    &[(2, 8)],
    &[(3, 128)],
    &[(4, 1)],
    &[(4, 255)],
    &[(5, 1)],
    &[(5, 255)],
    &[(6, 1)],
    &[(6, 255)],
    &[(7, 1)],
    &[(7, 255)],
    // A quarter, a half, a quarter of the width and of the height.
    &[(4, 255), (5, 255), (6, 1)],
    &[(4, 255), (7, 1)],
    &[(5, 255), (7, 1)],
    &[(4, 254), (7, 1)],
    &[(5, 254), (7, 1)],
];
