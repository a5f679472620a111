//! The checked examples of document 01.

use samples::paper::{examples, Example, A};
use tuned::{read_unit, write_flags};

#[test]
fn p1_to_p7() {
    for Example { settings, address, flags, rows } in examples() {
        let mut got = vec![0xa5; rows.len()];
        let count = rows.len() as u64 / 8;
        assert_eq!(read_unit(&settings, address, flags, &mut got), (0, count));
        assert_eq!(got, rows);
        let mut got = vec![0xa5; flags.len()];
        let count = flags.len() as u64;
        assert_eq!(write_flags(&settings, address, &rows, &mut got), (0, count));
        assert_eq!(got, flags);
    }
}

#[test]
fn p8_to_p10() {
    let rows = &mut [0xa5; 100];
    assert_eq!(read_unit(&A, 0, &[], rows), (11, 0));
    assert_eq!(read_unit(&A, 0, &[0, 0], rows), (13, 1));
    assert_eq!(write_flags(&A, 0, &[], rows), (27, 0));
    assert_eq!(*rows, [0xa5; 100]);
}

#[test]
fn examples_of_the_test_program() {
    let [_, Example { flags, rows: mut table, .. }, ..] = examples();
    let rows = &mut [0xa5; 100];
    assert_eq!(read_unit(&A, 0, &[2], rows), (12, 0));
    assert_eq!(read_unit(&A, 0, &[1, 0, 0, 0], rows), (11, 4));
    assert_eq!(read_unit(&A, 0, flags, &mut rows[..31]), (14, 4));
    assert_eq!(write_flags(&A, 0, &table, &mut rows[..4]), (17, 5));
    assert_eq!(write_flags(&A, 0, &table.repeat(2), rows), (28, 4));
    assert_eq!(write_flags(&A, 0, &table.repeat(300), rows), (28, 4));
    table[16..].rotate_left(8);
    assert_eq!(write_flags(&A, 0, &table, rows), (16, 2));
    assert_eq!(*rows, [0xa5; 100]);
    let width = |width| [64, 4, 16, 0, 32, 32, width, 64];
    assert_eq!(read_unit(&[64, 4, 8, 3, 32, 32, 68, 64], 0, &[0], rows), (7, 0));
    assert_eq!(read_unit(&width(72), 0, &[0], rows), (9, 0));
    assert_eq!(read_unit(&width(80), 0, &[0], rows), (0, 1));
}
