//! Pipeline units; what is expected was worked out by hand.

use h266::{pipeline_side, rows};
use samples::paper::{examples, A};

use crate::row;

#[test]
fn the_smaller_of_64_and_the_ctu_side() {
    for (ctu, side) in [(32, 32), (64, 64), (128, 64)] {
        let mut settings = A;
        settings[0] = ctu;
        assert_eq!(pipeline_side(&settings), side);
    }
}

#[test]
fn rows_inside_one() {
    for (row, side) in [
        (row(0, 0, 5, 5), 32),
        (row(32, 96, 5, 5), 32),
        (row(60, 28, 2, 2), 32),
        (row(16, 0, 5, 6), 64),
        (row(64, 64, 6, 6), 64),
    ] {
        assert_eq!(row.pipeline_units(side), 1, "{row:?}");
        assert!(row.is_in_pipeline(side), "{row:?}");
    }
}

#[test]
fn rows_of_whole_ones() {
    for (row, side, units) in
        [(row(0, 0, 7, 7), 64, 4), (row(64, 0, 6, 7), 64, 2), (row(32, 0, 6, 5), 32, 2)]
    {
        assert_eq!(row.pipeline_units(side), units, "{row:?}");
        assert!(row.is_in_pipeline(side), "{row:?}");
    }
}

/// The middle part of a ternary split of 64 is one of them, where the side is 32.
#[test]
fn rows_that_leave() {
    for (row, side, units) in [
        (row(16, 0, 5, 6), 32, 4),
        (row(0, 16, 6, 5), 32, 4),
        (row(28, 0, 3, 2), 32, 2),
        (row(0, 0, 7, 5), 64, 2),
        (row(32, 32, 6, 6), 64, 4),
    ] {
        assert_eq!(row.pipeline_units(side), units, "{row:?}");
        assert!(!row.is_in_pipeline(side), "{row:?}");
    }
}

#[test]
fn document_01s_rows() {
    for example in examples() {
        let side = pipeline_side(&example.settings);
        for row in rows(&example.rows) {
            assert!(row.is_in_pipeline(side), "{row:?}");
        }
    }
}
