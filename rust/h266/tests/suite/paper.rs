//! The checked examples of document 01.

use h266::{open, read_unit, unit, write_flags, Settings};
use samples::broken;
use samples::paper::{examples, Example, A};

/// P2, whose second row's bytes the document gives.
fn p2() -> Example {
    let [_, p2, ..] = examples();
    assert_eq!(p2.rows[8..16], [0x20, 0, 0, 0, 5, 5, 1, 0]);
    p2
}

/// Both directions, with exact buffers and with longer ones.
fn check(example: &Example) {
    let Example { settings, address, flags, rows } = example;
    for extra in [0, 1, 8, 100] {
        let mut got = vec![0xa5; rows.len() + extra];
        let answer = read_unit(settings, *address, flags, &mut got);
        assert_eq!(answer, (0, rows.len() as u64 / 8));
        assert_eq!(got[..rows.len()], *rows);
        assert!(got[rows.len()..].iter().all(|&byte| byte == 0xa5));

        let mut got = vec![0xa5; flags.len() + extra];
        let answer = write_flags(settings, *address, rows, &mut got);
        assert_eq!(answer, (0, flags.len() as u64));
        assert_eq!(got[..flags.len()], **flags);
        assert!(got[flags.len()..].iter().all(|&byte| byte == 0xa5));
    }
}

/// A refused reading, with the buffer as it was.
fn refused(settings: &Settings, flags: &[u8], room: usize, expected: (u64, u64)) {
    let mut rows = vec![0xa5; room];
    assert_eq!(read_unit(settings, 0, flags, &mut rows), expected);
    assert!(rows.iter().all(|&byte| byte == 0xa5));
}

#[test]
fn p1_to_p7() {
    examples().iter().for_each(check);
}

#[test]
fn p8_to_p10() {
    refused(&A, &[], 100, (11, 0));
    refused(&A, &[0, 0], 100, (13, 1));
    assert_eq!(write_flags(&A, 0, &[], &mut []), (27, 0));
}

#[test]
fn examples_of_the_test_program() {
    refused(&A, &[2], 100, (12, 0));
    refused(&A, &[1, 0, 0, 0], 100, (11, 4));
    let Example { flags, rows, .. } = p2();
    refused(&A, flags, 31, (14, 4));
    assert_eq!(read_unit(&A, 0, flags, &mut [0; 32]), (0, 4));
    // The quarters have a fixed order, so the first of two exchanged rows fits no tree.
    for (first, second) in [(0, 1), (0, 2), (0, 3), (1, 2), (1, 3), (2, 3)] {
        let exchanged = broken::exchanged(&rows, first, second);
        let answer = write_flags(&A, 0, &exchanged, &mut [0; 100]);
        assert_eq!(answer, (16, first as u64), "{first} and {second}");
    }
    let mut due = 3;
    assert_eq!(open(&[64, 4, 8, 3, 32, 32, 68, 64], &mut due), (7, 0));
    assert_eq!(open(&[64, 4, 16, 0, 32, 32, 72, 64], &mut due), (9, 0));
    assert_eq!(due, 3);
    assert_eq!(open(&[64, 4, 16, 0, 32, 32, 80, 64], &mut due), (0, 0));
    assert_eq!(due, 0);
}

#[test]
fn way_back_refusals() {
    let table = p2().rows;
    assert_eq!(write_flags(&A, 1, &table, &mut [0; 5]), (10, 0));
    assert_eq!(write_flags(&A, 0, &table[..31], &mut [0; 5]), (15, 3));
    for rows in 0..4 {
        let answer = write_flags(&A, 0, &table[..8 * rows], &mut [0; 5]);
        assert_eq!(answer, (27, rows as u64));
    }
    for more in [&table[..8], &table, &[0xff; 9_000]] {
        assert_eq!(write_flags(&A, 0, &[&table, more].concat(), &mut [0; 5]), (28, 4));
    }
    let mut short = [7; 4];
    assert_eq!(write_flags(&A, 0, &table, &mut short), (17, 5));
    assert_eq!(short, [7; 4]);
}

#[test]
fn session_in_order() {
    let settings = [64, 4, 8, 3, 32, 32, 128, 64];
    let (mut due, mut rows) = (0, [0; 64]);
    assert_eq!(unit(&settings, &mut due, 1, &[0], &mut rows), (21, 0));
    assert_eq!(unit(&settings, &mut due, 0, &[0], &mut rows), (0, 1));
    assert_eq!(unit(&settings, &mut due, 1, &[2], &mut rows), (12, 0));
    assert_eq!(due, 1);
    assert_eq!(unit(&settings, &mut due, 0, &[0], &mut rows), (21, 1));
    assert_eq!(unit(&settings, &mut due, 1, &[0], &mut rows), (0, 1));
    assert_eq!(unit(&settings, &mut due, 2, &[0], &mut rows), (20, 0));
    assert_eq!(due, 2);
    due = 3;
    assert_eq!(unit(&settings, &mut due, 3, &[0], &mut rows), (22, 0));
    assert_eq!(unit(&[0; 8], &mut due, 3, &[0], &mut rows), (22, 0));
    assert_eq!(due, 3);
}
