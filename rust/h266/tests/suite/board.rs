//! The board; what is expected was worked out by hand.

use h266::{pipeline_side, rows, write_flags, Board, BoardFault, Row};
use samples::paper::examples;

use crate::row;

/// The first fault that the board meets in rows of a picture, the end of the table included.
fn fault(side: u32, (width, height): (u32, u32), rows: &[Row]) -> Option<BoardFault> {
    let mut board = Board::new(side, width, height);
    rows.iter().try_for_each(|row| board.row(row)).and_then(|()| board.start()).err()
}

/// A unit of 32 by 32 whose left half is two columns of 8 by 32, each halved.
fn columns() -> [Row; 5] {
    let deep = |x0, y0| Row { mtt_depth: 3, ..row(x0, y0, 3, 4) };
    let right = Row { mtt_depth: 1, ..row(16, 0, 4, 5) };
    [deep(0, 0), deep(0, 16), deep(8, 0), deep(8, 16), right]
}

#[test]
fn units_that_come_whole() {
    assert_eq!(fault(32, (32, 32), &columns()), None);
    // Two units as one row, the third as two rows, then the fourth.
    let rows = [row(0, 0, 7, 6), row(0, 64, 6, 5), row(0, 96, 6, 5), row(64, 64, 6, 6)];
    assert_eq!(fault(64, (128, 128), &rows), None);
    // The picture ends 8 columns into the second unit, and 16 lines into those below.
    let edge = [row(0, 0, 6, 6), row(64, 0, 3, 6), row(0, 64, 6, 4), row(64, 64, 3, 4)];
    assert_eq!(fault(64, (72, 80), &edge), None);
    assert_eq!(fault(64, (72, 80), &[]), None);
}

#[test]
fn units_that_are_left_too_early() {
    let missing = |unit| Some(BoardFault::Missing(unit));
    let halves = [row(0, 0, 5, 6), row(64, 0, 6, 6), row(32, 0, 5, 6)];
    assert_eq!(fault(64, (128, 64), &halves), missing((0, 0)));
    assert_eq!(fault(64, (128, 64), &halves[..1]), missing((0, 0)));
    // A row over two units while another one is coming.
    assert_eq!(fault(64, (128, 128), &[row(64, 0, 6, 5), row(0, 64, 7, 6)]), missing((1, 0)));
}

#[test]
fn samples_that_come_again() {
    let again = |unit| Some(BoardFault::Again(unit));
    let whole = row(0, 0, 6, 6);
    assert_eq!(fault(64, (128, 64), &[whole, whole]), again((0, 0)));
    assert_eq!(fault(64, (128, 64), &[whole, row(64, 0, 6, 6), row(0, 0, 3, 3)]), again((0, 0)));
    assert_eq!(fault(64, (128, 64), &[row(64, 0, 6, 6), row(0, 0, 7, 6)]), again((1, 0)));
    // As many samples as the unit has, and half of them missing.
    assert_eq!(fault(64, (64, 64), &[row(0, 0, 5, 6), row(0, 0, 5, 6)]), again((0, 0)));
}

#[test]
fn rows_out_of_the_picture() {
    for row in
        [row(64, 0, 3, 3), row(60, 0, 3, 3), row(0, 60, 3, 3), row(0, 0, 7, 6), row(0, 0, 200, 2)]
    {
        assert_eq!(fault(64, (64, 64), &[row]), Some(BoardFault::Outside), "{row:?}");
    }
}

/// Other sides than R-4's: the tables are those of coding trees.
#[test]
fn squares_that_do_not_come_whole() {
    // 16: the columns leave the square at (0, 0) in its middle.
    let table: Vec<u8> = columns().iter().flat_map(|row| row.to_bytes()).collect();
    assert_eq!(write_flags(&[32, 4, 8, 3, 32, 32, 32, 32], 0, &table, &mut [0; 64]).0, 0);
    assert_eq!(fault(16, (32, 32), &columns()), Some(BoardFault::Missing((0, 0))));
    // 128: a unit of 64 by 64 ends within the square, where the picture goes on.
    let unit = row(0, 0, 6, 6);
    assert_eq!(
        write_flags(&[64, 4, 8, 3, 32, 32, 128, 64], 0, &unit.to_bytes(), &mut [0; 64]).0,
        0
    );
    assert_eq!(fault(128, (128, 64), &[unit]), Some(BoardFault::Missing((0, 0))));
    assert_eq!(fault(128, (64, 64), &[unit]), None);
}

#[test]
fn document_01s_rows() {
    for example in examples() {
        let [.., width, height] = example.settings;
        let rows: Vec<_> = rows(&example.rows).collect();
        assert_eq!(fault(pipeline_side(&example.settings), (width, height), &rows), None);
    }
}
