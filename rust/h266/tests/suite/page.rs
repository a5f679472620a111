//! The partition page; what is expected was written down by hand from the paper.

use h266::{page, read_unit, Settings};
use samples::deepest;
use samples::paper::{examples, Example, A};

use crate::row;

/// The picture with the most units: CTU side 32, 512 by 512 units.
const LARGEST: Settings = [32, 4, 8, 3, 32, 32, 16_384, 16_384];

/// The page of accepted rows.
fn text(settings: &Settings, address: u64, rows: &[u8]) -> String {
    let needed = 33 * (rows.len() / 8);
    let mut lent = vec![0xa5; needed + 1];
    assert_eq!(page(settings, address, rows, &mut lent), (0, needed as u64));
    assert_eq!(lent.pop(), Some(0xa5));
    String::from_utf8(lent).expect("text")
}

/// The page of a unit that is one row, with this exponent of its side.
fn one_row(settings: &Settings, address: u64, x: u16, y: u16, log2_side: u8) -> String {
    text(settings, address, &row(x, y, log2_side, log2_side).to_bytes())
}

/// A refused page, left as it was.
fn refused(settings: &Settings, address: u64, rows: &[u8], room: usize, expected: (u64, u64)) {
    let mut lent = vec![0xa5; room];
    assert_eq!(page(settings, address, rows, &mut lent), expected);
    assert!(lent.iter().all(|&byte| byte == 0xa5));
}

fn p2_rows() -> Vec<u8> {
    examples()[1].rows.clone()
}

#[test]
fn the_papers_line() {
    let page = text(&A, 0, &p2_rows());
    assert_eq!(page.lines().nth(1), Some("     0    32     0  32  32  1  0"));
    let second = [
        32, 32, 32, 32, 32, b'0', 32, 32, 32, 32, b'3', b'2', 32, 32, 32, 32, 32, b'0', 32, 32,
        b'3', b'2', 32, 32, b'3', b'2', 32, 32, b'1', 32, 32, b'0', 10,
    ];
    assert_eq!(page.as_bytes()[33..66], second);
}

/// What stands in the columns of a line, right-aligned: 6, 6, 6, 4, 4, 3 and 3 of them.
fn columns(line: &str) -> [&str; 7] {
    assert_eq!((line.len(), &line[32..]), (33, "\n"));
    [0..6, 6..12, 12..18, 18..22, 22..26, 26..29, 29..32]
        .map(|columns| line[columns].trim_start_matches(' '))
}

#[test]
fn the_papers_columns() {
    for Example { settings, address, rows, .. } in examples() {
        let page = text(&settings, address, &rows);
        assert_eq!(page.lines().count(), rows.len() / 8);
        for (line, row) in page.split_inclusive('\n').zip(h266::rows(&rows)) {
            let (width, height) = (1 << row.log2_cb_width, 1 << row.log2_cb_height);
            let [qt_depth, mtt_depth] = [row.cqt_depth, row.mtt_depth].map(u64::from);
            let (x, y) = (row.x0.into(), row.y0.into());
            let numbers = [address, x, y, width, height, qt_depth, mtt_depth];
            assert_eq!(columns(line), numbers.map(|number| number.to_string()), "{line}");
        }
    }
}

#[test]
fn numbers_of_every_length() {
    assert_eq!(one_row(&A, 0, 0, 0, 6), "     0     0     0  64  64  0  0\n");
    assert_eq!(one_row(&LARGEST, 9, 288, 0, 5), "     9   288     0  32  32  0  0\n");
    assert_eq!(one_row(&LARGEST, 10, 320, 0, 5), "    10   320     0  32  32  0  0\n");
    assert_eq!(one_row(&LARGEST, 512, 0, 32, 5), "   512     0    32  32  32  0  0\n");
    assert_eq!(one_row(&LARGEST, 1_000, 15_616, 32, 5), "  1000 15616    32  32  32  0  0\n");
    assert_eq!(one_row(&LARGEST, 16_384, 0, 1_024, 5), " 16384     0  1024  32  32  0  0\n");
    assert_eq!(one_row(&LARGEST, 100_000, 5_120, 6_240, 5), "100000  5120  6240  32  32  0  0\n");
    assert_eq!(one_row(&LARGEST, 262_143, 16_352, 16_352, 5), "262143 16352 16352  32  32  0  0\n");
    let large = [128, 4, 8, 3, 128, 64, 128, 128];
    assert_eq!(one_row(&large, 0, 0, 0, 7), "     0     0     0 128 128  0  0\n");
}

#[test]
fn a_depth_of_two_digits() {
    let lines = "     0     0     0   4   4  0 10
     0     0     4   4   4  0 10
     0     4     0   4   8  0  9
     0     0     8   8   8  0  8
     0     8     0   8  16  0  7
     0     0    16  16  16  0  6
     0    16     0  16  32  0  5
     0     0    32  32  32  0  4
     0    32     0  32  64  0  3
     0     0    64  64  64  0  2
     0    64     0  64 128  0  1
";
    assert_eq!(text(&deepest::SETTINGS, 0, &deepest::rows()), lines);
}

#[test]
fn refusals_in_order() {
    let rows = p2_rows();
    let bad = [48, 3, 12, 99, 3, 3, 1, 1];
    for room in [0, 131, 132, 200] {
        refused(&bad, 1, &rows[..31], room, (1, 0));
        refused(&[64, 4, 16, 0, 32, 32, 72, 64], 9, &rows[..31], room, (9, 0));
        refused(&A, 1, &rows[..31], room, (10, 0));
        refused(&LARGEST, 262_144, &rows, room, (10, 0));
        refused(&A, 0, &rows[..31], room, (15, 3));
        refused(&A, 0, &rows[..24], room, (27, 3));
        refused(&A, 0, &[], room, (27, 0));
        refused(&A, 0, &[&rows[..], &rows].concat(), room, (28, 4));
        refused(&A, 0, &rows[8..], room, (16, 0));
        refused(&A, 0, &[&rows[..16], &rows[24..]].concat(), room, (16, 2));
    }
    for room in [0, 1, 33, 131] {
        refused(&A, 0, &rows, room, (23, 132));
    }
}

/// A unit line's address and flags.
fn unit_line(line: &str) -> Option<(u64, Vec<u8>)> {
    let (address, flags) = line.strip_prefix("unit ")?.split_once(':')?;
    let flags = flags.split_whitespace().map(|flag| flag.parse().expect("a flag"));
    Some((address.parse().expect("an address"), flags.collect()))
}

/// The pages of the unit lines of a sample, one after the other.
fn pages(sample: &str, settings: &Settings) -> String {
    let units = sample.lines().filter_map(unit_line);
    let pages = units.map(|(address, flags)| {
        let mut rows = vec![0; 8_192];
        let (number, count) = read_unit(settings, address, &flags, &mut rows);
        assert_eq!(number, 0, "unit {address}");
        text(settings, address, &rows[..8 * count as usize])
    });
    pages.collect()
}

/// The stored pages, which the program has to print.
#[test]
fn stored_pages() {
    let p2 = pages(include_str!("../../../../samples/p2.txt"), &A);
    assert_eq!(p2, include_str!("../../../../samples/p2.page"));
    let settings = [64, 4, 8, 3, 32, 32, 72, 72];
    let edge = pages(include_str!("../../../../samples/edge.txt"), &settings);
    assert_eq!(edge, include_str!("../../../../samples/edge.page"));
}
