//! Examples; what is expected was written down by hand from document 02, R-10.

use h265::{open, read_unit, unit_count, write_flags, Settings};

/// X, Y, exponent of the side, QT depth.
type Fields = (u16, u16, u8, u8);

fn table(rows: &[Fields]) -> Vec<u8> {
    let bytes = |&(x, y, side, depth): &Fields| {
        let ([x0, x1], [y0, y1]) = (x.to_le_bytes(), y.to_le_bytes());
        [x0, x1, y0, y1, side, side, depth, 0]
    };
    rows.iter().flat_map(bytes).collect()
}

/// Both directions, with exact buffers and with longer ones.
fn check(settings: &Settings, address: u64, flags: &[u8], rows: &[Fields]) {
    let table = table(rows);
    for extra in [0, 1, 8, 100] {
        let mut got = vec![0xa5; table.len() + extra];
        let answer = read_unit(settings, address, flags, &mut got);
        assert_eq!(answer, (0, rows.len() as u64));
        assert_eq!(got[..table.len()], table);
        assert!(got[table.len()..].iter().all(|&byte| byte == 0xa5));

        let mut got = vec![0xa5; flags.len() + extra];
        let answer = write_flags(settings, address, &table, &mut got);
        assert_eq!(answer, (0, flags.len() as u64));
        assert_eq!(got[..flags.len()], *flags);
        assert!(got[flags.len()..].iter().all(|&byte| byte == 0xa5));
    }
}

/// A refused reading, with the buffer as it was.
fn refused(settings: &Settings, address: u64, flags: &[u8], room: usize, expected: (u64, u64)) {
    let mut rows = vec![0xa5; room];
    assert_eq!(read_unit(settings, address, flags, &mut rows), expected);
    assert!(rows.iter().all(|&byte| byte == 0xa5));
}

/// A refused way back, with the buffer as it was.
fn refused_back(settings: &Settings, rows: &[u8], room: usize, expected: (u64, u64)) {
    let mut flags = vec![0xa5; room];
    assert_eq!(write_flags(settings, 0, rows, &mut flags), expected);
    assert!(flags.iter().all(|&byte| byte == 0xa5));
}

const ONE: Settings = [64, 8, 64, 64];
const QUARTERS: [Fields; 4] = [(0, 0, 5, 1), (32, 0, 5, 1), (0, 32, 5, 1), (32, 32, 5, 1)];

#[test]
fn blocks_inside_the_picture() {
    check(&ONE, 0, &[0], &[(0, 0, 6, 0)]);
    check(&ONE, 0, &[1, 0, 0, 0, 0], &QUARTERS);
    // The second quarter in four: a flag for each of these, too.
    let four = [(32, 0, 4, 2), (48, 0, 4, 2), (32, 16, 4, 2), (48, 16, 4, 2)];
    let rows = [&QUARTERS[..1], &four, &QUARTERS[2..]].concat();
    check(&ONE, 0, &[1, 0, 1, 0, 0, 0, 0, 0, 0], &rows);
    // The last of the four in smallest blocks, which have no flag.
    let eight = [(48, 16, 3, 3), (56, 16, 3, 3), (48, 24, 3, 3), (56, 24, 3, 3)];
    let rows = [&QUARTERS[..1], &four[..3], &eight, &QUARTERS[2..]].concat();
    check(&ONE, 0, &[1, 0, 1, 0, 0, 0, 1, 0, 0], &rows);
}

/// 21 flags, all of them 1, and 64 rows.
#[test]
fn the_most_rows_and_flags() {
    let mut rows = [0; 512];
    assert_eq!(read_unit(&ONE, 0, &[1; 21], &mut rows), (0, 64));
    assert_eq!(rows[8 * 63..], [56, 0, 56, 0, 3, 3, 3, 0]);
    assert_eq!(write_flags(&ONE, 0, &rows, &mut [0; 21]), (0, 21));
    refused_back(&ONE, &rows, 20, (17, 21));
    refused(&ONE, 0, &[1; 21], 511, (14, 64));
}

/// A unit whose side is the smallest has no flags.
#[test]
fn no_flags() {
    for side in [16, 32, 64u32] {
        let settings = [side, side, 3 * side, side];
        check(&settings, 2, &[], &[((2 * side) as u16, 0, side.ilog2() as u8, 0)]);
        refused(&settings, 0, &[0], 8, (13, 0));
    }
}

/// 72 by 40: the second unit has a column of smallest blocks, without a flag.
#[test]
fn units_over_an_edge() {
    let settings = [64, 8, 72, 40];
    let column = [0, 8, 16, 24, 32].map(|y| (64, y, 3, 3));
    check(&settings, 1, &[], &column);
    // The first: 64 by 40. Two quarters inside, below them a line of smallest blocks.
    let line = [0, 8, 16, 24, 32, 40, 48, 56].map(|x| (x, 32, 3, 3));
    check(&settings, 0, &[0, 0], &[&QUARTERS[..2], &line].concat());
    // With blocks of 16: 80 by 48, and the unit at the corner has one column of three.
    let column = [0, 16, 32].map(|y| (64, y, 4, 2));
    check(&[64, 16, 80, 48], 1, &[], &column);
    // 80 by 48 with blocks of 8: the blocks of 16 are inside, and have a flag.
    check(&[64, 8, 80, 48], 1, &[0, 0, 0], &column);
}

/// 1,024 units in a row, and 1,048,576 of them.
#[test]
fn the_largest_pictures() {
    for (settings, count) in [
        ([16, 8, 16_384, 16], 1_024),
        ([16, 8, 16, 16_384], 1_024),
        ([16, 8, 16_384, 16_384], 1 << 20),
    ] {
        assert_eq!(unit_count(&settings), (0, count));
        refused(&settings, count, &[0], 8, (10, 0));
        refused(&settings, u64::MAX, &[0], 8, (10, 0));
    }
    check(&[16, 8, 16_384, 16], 1_023, &[0], &[(16_368, 0, 4, 0)]);
    check(&[16, 8, 16, 16_384], 1_023, &[0], &[(0, 16_368, 4, 0)]);
    check(&[16, 8, 16_384, 16_384], (1 << 20) - 1, &[0], &[(16_368, 16_368, 4, 0)]);
    check(&[16, 8, 16_384, 16_384], (1 << 20) - 1_025, &[0], &[(16_368, 16_352, 4, 0)]);
}

#[test]
fn settings_in_order() {
    for (settings, number) in [
        ([128, 4, 0, 0], 34),
        ([8, 8, 64, 64], 34),
        ([0, 8, 64, 64], 34),
        ([16, 4, 0, 0], 35),
        ([16, 32, 32, 32], 35),
        ([64, 24, 48, 48], 35),
        ([64, 0, 64, 64], 35),
        ([64, 16, 8, 8], 7),
        ([64, 8, 0, 0], 7),
        ([64, 8, 16_392, 64], 7),
        ([64, 8, 68, 64], 7),
        ([64, 16, 64, 72], 8),
        ([64, 8, 64, 0], 8),
        ([64, 8, 64, 16_392], 8),
    ] {
        let mut due = 5;
        assert_eq!(open(&settings, &mut due), (number, 0), "{settings:?}");
        assert_eq!((due, unit_count(&settings)), (5, (number, 0)), "{settings:?}");
        // Before the address, the flags and the rows.
        refused(&settings, u64::MAX, &[9], 0, (number, 0));
        refused_back(&settings, &[0; 7], 0, (number, 0));
    }
}

#[test]
fn readings_that_are_refused() {
    refused(&ONE, 1, &[9], 0, (10, 0));
    refused(&ONE, 0, &[], 0, (11, 0));
    refused(&ONE, 0, &[1, 0, 0, 0], 0, (11, 4));
    refused(&ONE, 0, &[2], 0, (12, 0));
    refused(&ONE, 0, &[1, 0, 255], 0, (12, 2));
    refused(&ONE, 0, &[0, 9], 0, (13, 1));
    refused(&ONE, 0, &[1, 0, 0, 0, 0], 31, (14, 4));
    assert_eq!(read_unit(&ONE, 0, &[1, 0, 0, 0, 0], &mut [0; 32]), (0, 4));
}

#[test]
fn tables_that_are_refused() {
    let quarters = table(&QUARTERS);
    assert_eq!(write_flags(&ONE, 1, &quarters, &mut [0; 5]), (10, 0));
    refused_back(&ONE, &quarters[..31], 9, (15, 3));
    for rows in 0..4 {
        refused_back(&ONE, &quarters[..8 * rows], 0, (27, rows as u64));
    }
    refused_back(&ONE, &[&quarters[..], &quarters].concat(), 0, (28, 4));
    refused_back(&ONE, &quarters.repeat(2_000), 0, (28, 4));
    refused_back(&ONE, &quarters[8..], 0, (16, 0));
    refused_back(&ONE, &quarters, 4, (17, 5));
    // A depth, a multi-type depth, another height, a block of 4 by 4.
    for (byte, value) in [(14, 2), (15, 1), (13, 4), (12, 2)] {
        let mut changed = quarters.clone();
        changed[byte] = value;
        refused_back(&ONE, &changed, 9, (16, 1));
    }
    // Another tree has a block of 16 by 16 there; its neighbour is missing.
    let other = table(&[QUARTERS[0], (32, 0, 4, 2), QUARTERS[2], QUARTERS[3]]);
    refused_back(&ONE, &other, 9, (16, 2));
    // A block over the edge.
    refused_back(&[64, 8, 56, 64], &table(&[(0, 0, 6, 0)]), 9, (16, 0));
}
