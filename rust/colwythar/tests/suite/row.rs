//! Rows to bytes and back.

use colwythar::{rows, Row};

#[test]
fn bytes_in_order() {
    let row = Row {
        x: 0x3ffc,
        y: 0x0104,
        width_exponent: 7,
        height_exponent: 2,
        qt_depth: 5,
        mtt_depth: 10,
    };
    let bytes = [0xfc, 0x3f, 0x04, 0x01, 7, 2, 5, 10];
    assert_eq!(row.to_bytes(), bytes);
    assert_eq!(Row::from_bytes(&bytes), row);
    assert_eq!((row.width(), row.height()), (128, 4));
}

#[test]
fn every_bit_counts() {
    for bit in 0..64 {
        let bytes = (1u64 << bit).to_le_bytes();
        let row = Row::from_bytes(&bytes);
        assert_ne!(row, Row::from_bytes(&[0; 8]));
        assert_eq!(row.to_bytes(), bytes);
    }
}

#[test]
fn rows_of_a_table() {
    let table: Vec<u8> = (0..20).collect();
    assert_eq!(rows(&table).len(), 2);
    let last = rows(&table).last().expect("two rows");
    assert_eq!(last.to_bytes(), table[8..16]);
    assert_eq!(rows(&[]).len(), 0);
}

#[test]
fn exponents_that_no_engine_row_has() {
    let row = Row::from_bytes(&[0, 0, 0, 0, 32, 255, 0, 0]);
    assert_eq!((row.width(), row.height()), (0, 0));
}
