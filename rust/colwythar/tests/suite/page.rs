//! Pages; the lines were written down by hand from the paper.

use colwythar::{page, page_text, read_unit, Refusal, Settings, LINE_BYTES, MAX_PAGE_BYTES};

use crate::paper::{table, Fields, P2};
use crate::A;

/// The page of P2.
const P2_PAGE: &str = "     0     0     0  32  32  1  0
     0    32     0  32  32  1  0
     0     0    32  32  32  1  0
     0    32    32  32  32  1  0
";

/// The picture with the most units.
const LARGEST: Settings = Settings { ctu: 32, width: 16_384, height: 16_384, ..A };

/// A page, exact and longer, and as text.
fn check(settings: &Settings, address: u64, fields: &[Fields], lines: &str) {
    let rows = table(fields);
    for extra in [0, 1, 33, 100] {
        let mut got = vec![0xa5; lines.len() + extra];
        assert_eq!(page(settings, address, &rows, &mut got), Ok(lines.len()));
        assert_eq!(got[..lines.len()], *lines.as_bytes());
        assert!(got[lines.len()..].iter().all(|&byte| byte == 0xa5));
    }
    assert_eq!(page_text(settings, address, &rows).as_deref(), Ok(lines));
}

/// A refused page of this length, which is left as it was.
fn refused(settings: &Settings, address: u64, rows: &[u8], room: usize, refusal: Refusal) {
    let mut lent = vec![0xa5; room];
    assert_eq!(page(settings, address, rows, &mut lent), Err(refusal));
    assert!(lent.iter().all(|&byte| byte == 0xa5));
}

/// Rows that are refused with any page, also as text.
fn never_printed(settings: &Settings, address: u64, rows: &[u8], number: u64, place: u64) {
    let refusal = Refusal { number, place };
    for room in [0, 1, 33, 131, 132, 1_000] {
        refused(settings, address, rows, room, refusal);
    }
    assert_eq!(page_text(settings, address, rows), Err(refusal));
}

#[test]
fn p2() {
    check(&A, 0, &P2, P2_PAGE);
}

#[test]
fn p5() {
    let rows =
        [(64, 0, 3, 5, 1, 2), (64, 32, 3, 4, 2, 1), (64, 48, 3, 3, 3, 0), (64, 56, 3, 3, 3, 0)];
    let lines = "     1    64     0   8  32  1  2
     1    64    32   8  16  2  1
     1    64    48   8   8  3  0
     1    64    56   8   8  3  0
";
    check(&Settings { width: 72, ..A }, 1, &rows, lines);
}

#[test]
fn the_widest_numbers() {
    check(&LARGEST, 262_143, &[(16_352, 16_352, 5, 5, 0, 0)], "262143 16352 16352  32  32  0  0\n");
    let large = Settings { ctu: 128, max_bt: 128, max_tt: 64, ..LARGEST };
    check(&large, 16_383, &[(16_256, 16_256, 7, 7, 0, 0)], " 16383 16256 16256 128 128  0  0\n");
}

#[test]
fn the_longest_page() {
    let settings = Settings::from([128, 4, 4, 0, 128, 64, 128, 128]);
    let mut rows = [0; 8 * 1_024];
    assert_eq!(read_unit(&settings, 0, &[1; 341], &mut rows), Ok(1_024));
    let text = page_text(&settings, 0, &rows).expect("a page");
    assert_eq!((text.len(), text.lines().count()), (33_792, 1_024));
    assert!(
        text.starts_with("     0     0     0   4   4  5  0\n     0     4     0   4   4  5  0\n")
    );
    assert!(text.ends_with("\n     0   124   124   4   4  5  0\n"));
    assert_eq!((LINE_BYTES, MAX_PAGE_BYTES), (33, 33_792));
    refused(&settings, 0, &rows, 33_791, Refusal { number: 23, place: 33_792 });
}

#[test]
fn pages_that_are_too_short() {
    for room in 0..P2_PAGE.len() {
        refused(&A, 0, &table(&P2), room, Refusal { number: 23, place: 132 });
    }
}

#[test]
fn rows_that_no_tree_gives() {
    never_printed(&A, 0, &[], 27, 0);
    never_printed(&A, 0, &table(&P2[..3]), 27, 3);
    never_printed(&A, 0, &table(&[P2[1], P2[0], P2[2], P2[3]]), 16, 0);
    never_printed(&A, 0, &table(&[P2[0], P2[1], P2[3], P2[2]]), 16, 2);
    never_printed(&A, 0, &table(&P2[1..]), 16, 0);
    never_printed(&A, 0, &table(&[&P2[..], &P2[3..]].concat()), 28, 4);
    let mut damaged = table(&P2);
    damaged[12] = 4;
    never_printed(&A, 0, &damaged, 16, 1);
    never_printed(&A, 0, &table(&[P2[0]; 1_025]), 16, 1);
    never_printed(&A, 0, &table(&P2.repeat(257)), 28, 4);
}

#[test]
fn other_refusals_of_the_way_back() {
    let rows = table(&P2);
    never_printed(&Settings { ctu: 48, ..A }, 0, &rows, 1, 0);
    never_printed(&Settings { width: 68, ..A }, 0, &rows, 7, 0);
    never_printed(&Settings { min_qt: 16, max_mtt: 0, height: 72, ..A }, 0, &rows, 9, 0);
    never_printed(&A, 1, &rows, 10, 0);
    never_printed(&LARGEST, 262_144, &rows, 10, 0);
    never_printed(&A, 0, &rows[..31], 15, 3);
    never_printed(&A, 0, &rows[..1], 15, 0);
    // The first in the order of the numbers.
    never_printed(&A, 1, &rows[..31], 10, 0);
}
