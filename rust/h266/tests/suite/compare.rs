//! Comparing two tables; what is expected was worked out by hand.

use std::collections::BTreeSet;

use h266::{compare, rows, Row, Settings};
use samples::paper::{examples, A};
use samples::Rng;

use crate::random::{case, case_of, Case};
use crate::row;

/// A unit of 32 by 32 with all splits.
const UNIT: Settings = [32, 4, 8, 3, 32, 32, 32, 32];

/// Rows at these corners, with the same exponents of their sides and the same depths.
fn alike(corners: &[(u16, u16)], (width, height): (u8, u8), depths: (u8, u8)) -> Vec<u8> {
    let (cqt_depth, mtt_depth) = depths;
    let row = |&(x, y)| Row { cqt_depth, mtt_depth, ..row(x, y, width, height) };
    corners.iter().flat_map(|corner| row(corner).to_bytes()).collect()
}

/// One row.
fn one(corner: (u16, u16), sides: (u8, u8), depths: (u8, u8)) -> Vec<u8> {
    alike(&[corner], sides, depths)
}

/// The unit as one block.
fn whole() -> Vec<u8> {
    one((0, 0), (5, 5), (0, 0))
}

/// In quarters by a quad split.
fn quad() -> Vec<u8> {
    alike(&[(0, 0), (16, 0), (0, 16), (16, 16)], (4, 4), (1, 0))
}

/// Two halves, one above the other, and side by side.
fn halves() -> [Vec<u8>; 2] {
    [alike(&[(0, 0), (0, 16)], (5, 4), (0, 1)), alike(&[(0, 0), (16, 0)], (4, 5), (0, 1))]
}

/// Asserts the answer to two tables, and its mirror image.
fn check(settings: &Settings, address: u64, first: &[u8], second: &[u8], answer: u64) {
    let mirrored = [0, 2, 1, 3][answer as usize];
    assert_eq!(compare(settings, address, first, second), (0, answer), "{first:?} {second:?}");
    assert_eq!(compare(settings, address, second, first), (0, mirrored), "{first:?} {second:?}");
}

#[test]
fn equal_blocks_with_other_depths_and_in_another_order() {
    let rows_first = alike(&[(0, 0), (16, 0), (0, 16), (16, 16)], (4, 4), (0, 2));
    let columns_first = alike(&[(0, 0), (0, 16), (16, 0), (16, 16)], (4, 4), (0, 2));
    check(&UNIT, 0, &quad(), &rows_first, 0);
    check(&UNIT, 0, &quad(), &columns_first, 0);
    check(&UNIT, 0, &rows_first, &columns_first, 0);
}

#[test]
fn a_table_and_itself() {
    for example in examples() {
        check(&example.settings, example.address, &example.rows, &example.rows, 0);
    }
}

/// P1 is one block, P2 its quarters, P3 has the first of them in three, and P4 the middle one of
/// these in three.
#[test]
fn document_01s_tables() {
    let [p1, p2, p3, p4, ..] = examples().map(|example| example.rows);
    let finer = [&p1, &p2, &p3, &p4];
    for (at, coarse) in finer.iter().enumerate() {
        finer[at + 1..].iter().for_each(|fine| check(&A, 0, coarse, fine, 2));
    }
}

#[test]
fn halves_and_quarters() {
    let [above, beside] = halves();
    check(&UNIT, 0, &above, &beside, 3);
    for half in [&above, &beside] {
        check(&UNIT, 0, &whole(), half, 2);
        check(&UNIT, 0, &quad(), half, 1);
    }
}

/// Of the quarters, one table splits the first on and the other the last.
#[test]
fn differences_in_two_quarters() {
    let deep = |x, y| alike(&[(x, y), (x + 8, y), (x, y + 8), (x + 8, y + 8)], (3, 3), (2, 0));
    let [q0, q1, q2, q3] =
        [(0, 0), (16, 0), (0, 16), (16, 16)].map(|corner| one(corner, (4, 4), (1, 0)));
    let first = [&deep(0, 0), &q1, &q2, &q3].map(Vec::as_slice).concat();
    let last = [&q0, &q1, &q2, &deep(16, 16)].map(Vec::as_slice).concat();
    let both = [&deep(0, 0), &q1, &q2, &deep(16, 16)].map(Vec::as_slice).concat();
    check(&UNIT, 0, &first, &last, 3);
    for one in [&first, &last] {
        check(&UNIT, 0, one, &both, 2);
        check(&UNIT, 0, one, &quad(), 1);
    }
}

/// Cuts at 8 and 24, at 16, at all three, and at 8, 12, 20 and 24.
#[test]
fn ternary_and_binary_splits() {
    let [above, beside] = halves();
    let outer = [(0, 0), (24, 0)].map(|corner| one(corner, (3, 5), (0, 1)));
    let around = |middle: &[u8]| [&outer[0][..], middle, &outer[1]].concat();
    let ternary = around(&one((8, 0), (4, 5), (0, 1)));
    let quarters = alike(&[(0, 0), (8, 0), (16, 0), (24, 0)], (3, 5), (0, 2));
    let narrow = [(8, 2), (12, 3), (20, 2)].map(|(x, width)| one((x, 0), (width, 5), (0, 2)));
    let twice = around(&narrow.concat());
    check(&UNIT, 0, &ternary, &beside, 3);
    check(&UNIT, 0, &ternary, &above, 3);
    check(&UNIT, 0, &ternary, &quarters, 2);
    check(&UNIT, 0, &beside, &quarters, 2);
    check(&UNIT, 0, &ternary, &twice, 2);
    check(&UNIT, 0, &quarters, &twice, 3);
    check(&UNIT, 0, &whole(), &twice, 2);
}

/// A picture of 16 by 24, in a unit of 32 by 32: a block of 16 by 16 above one of 16 by 8, whole or
/// in halves.
#[test]
fn a_picture_smaller_than_its_unit() {
    let settings = [32, 4, 8, 3, 32, 32, 16, 24];
    let above = [one((0, 0), (4, 4), (1, 0)), alike(&[(0, 0), (8, 0)], (3, 4), (1, 1))];
    let below = [one((0, 16), (4, 3), (1, 1)), alike(&[(0, 16), (8, 16)], (3, 3), (2, 0))];
    let table = |upper: usize, lower: usize| [&above[upper][..], &below[lower]].concat();
    check(&settings, 0, &table(0, 0), &table(0, 0), 0);
    check(&settings, 0, &table(0, 0), &table(1, 0), 2);
    check(&settings, 0, &table(0, 0), &table(0, 1), 2);
    check(&settings, 0, &table(1, 1), &table(0, 1), 1);
    check(&settings, 0, &table(1, 0), &table(0, 1), 3);
}

/// 40 by 40 in units of 32 by 32: the columns, the lines and the square of 8 samples at the edges.
#[test]
fn units_at_the_edges() {
    let settings = [32, 4, 8, 3, 32, 32, 40, 40];
    let column = |x, y| [one((x, y), (3, 4), (1, 1)), alike(&[(x, y), (x, y + 8)], (3, 3), (2, 0))];
    let line = |x, y| [one((x, y), (4, 3), (1, 1)), alike(&[(x, y), (x + 8, y)], (3, 3), (2, 0))];
    for (address, [first, second]) in
        [(1, [column(32, 0), column(32, 16)]), (2, [line(0, 32), line(16, 32)])]
    {
        let table = |one: usize, other: usize| [&first[one][..], &second[other]].concat();
        check(&settings, address, &table(0, 0), &table(1, 1), 2);
        check(&settings, address, &table(1, 0), &table(0, 0), 1);
        check(&settings, address, &table(1, 0), &table(0, 1), 3);
        check(&settings, address, &table(0, 1), &table(0, 1), 0);
    }
    let corner = one((32, 32), (3, 3), (2, 0));
    let parts = alike(&[(32, 32), (36, 32)], (2, 3), (2, 1));
    check(&settings, 3, &corner, &parts, 2);
    check(&settings, 3, &corner, &corner, 0);
}

/// Asserts that two tables are refused so.
fn refused(at: (&Settings, u64), first: &[u8], second: &[u8], refusal: (u64, u64)) {
    let (settings, address) = at;
    assert_eq!(compare(settings, address, first, second), refusal, "{first:?} {second:?}");
}

#[test]
fn refusals_in_order() {
    let whole = whole();
    let quad = quad();
    let long = [&whole[..], &quad].concat();
    // A table and the way back's refusal of it.
    let tables: [(&[u8], (u64, u64)); 5] = [
        (&[], (27, 0)),
        (&quad[..31], (15, 3)),
        (&quad[..24], (27, 3)),
        (&long, (28, 1)),
        (&quad[8..], (16, 0)),
    ];
    for (table, refusal) in tables {
        refused((&UNIT, 0), table, &whole, refusal);
        refused((&UNIT, 0), &whole, table, refusal);
        tables.iter().for_each(|(other, _)| refused((&UNIT, 0), table, other, refusal));
        // The settings and the address come before both tables.
        for other in [&whole[..], &quad[..31], &[]] {
            refused((&[48, 3, 12, 99, 3, 3, 1, 1], 1), table, other, (1, 0));
            refused((&[64, 4, 16, 0, 32, 32, 72, 64], 9), other, table, (9, 0));
            refused((&UNIT, 1), table, other, (10, 0));
            refused((&UNIT, u64::MAX), other, table, (10, 0));
        }
    }
}

/// The edges between samples inside a unit, in steps of a sample: whether it is vertical, and the
/// sample after it.
fn edges(table: &[u8]) -> BTreeSet<(bool, u16, u16)> {
    let of_row = |row: Row| {
        let (width, height) = (1 << row.log2_cb_width, 1 << row.log2_cb_height);
        let left = (row.y0..row.y0 + height).map(move |y| (true, row.x0, y));
        left.chain((row.x0..row.x0 + width).map(move |x| (false, x, row.y0)))
    };
    rows(table).flat_map(of_row).collect()
}

/// Said in another way: a table is finer or equal where it has all edges of the other.
#[test]
fn edges_of_random_tables() {
    let (mut rng, mut times) = (Rng::new(41), [0; 4]);
    for _ in 0..2_000 {
        let Case { settings, address, rows: first, .. } = case(&mut rng);
        let second = case_of(&mut rng, settings, address).rows;
        let [one, other] = [&first, &second].map(|table| edges(table));
        let answer = match (one.is_superset(&other), other.is_superset(&one)) {
            (true, true) => 0,
            (true, false) => 1,
            (false, true) => 2,
            (false, false) => 3,
        };
        check(&settings, address, &first, &second, answer);
        times[answer as usize] += 1;
    }
    assert!(times.iter().all(|&times| times >= 100), "{times:?}");
}
