//! The checked examples of document 01.

use colwythar::{read_unit, rows, write_flags, Refusal, Row, Session, Settings};

use crate::A;

/// X, Y, exponents of width and height, QT depth, MTT depth.
pub type Fields = (u16, u16, u8, u8, u8, u8);

const P2_FLAGS: [u8; 5] = [1, 0, 0, 0, 0];
pub const P2: [Fields; 4] =
    [(0, 0, 5, 5, 1, 0), (32, 0, 5, 5, 1, 0), (0, 32, 5, 5, 1, 0), (32, 32, 5, 5, 1, 0)];

fn row(fields: &Fields) -> Row {
    let (x, y, width_exponent, height_exponent, qt_depth, mtt_depth) = *fields;
    Row { x, y, width_exponent, height_exponent, qt_depth, mtt_depth }
}

pub fn table(fields: &[Fields]) -> Vec<u8> {
    fields.iter().flat_map(|fields| row(fields).to_bytes()).collect()
}

/// Both directions, with exact buffers and with longer ones.
fn check(settings: &Settings, address: u64, flags: &[u8], fields: &[Fields]) {
    let table = table(fields);
    for extra in [0, 1, 8, 100] {
        let mut got = vec![0xa5; table.len() + extra];
        assert_eq!(read_unit(settings, address, flags, &mut got), Ok(fields.len()));
        assert!(rows(&got[..table.len()]).eq(fields.iter().map(row)));
        assert!(got[table.len()..].iter().all(|&byte| byte == 0xa5));

        let mut got = vec![0xa5; flags.len() + extra];
        assert_eq!(write_flags(settings, address, &table, &mut got), Ok(flags.len()));
        assert_eq!(got[..flags.len()], *flags);
        assert!(got[flags.len()..].iter().all(|&byte| byte == 0xa5));
    }
}

/// A refused reading, with the buffer as it was.
fn refused(settings: &Settings, flags: &[u8], room: usize, number: u64, place: u64) {
    let mut buffer = vec![0xa5; room];
    assert_eq!(read_unit(settings, 0, flags, &mut buffer), Err(Refusal { number, place }));
    assert!(buffer.iter().all(|&byte| byte == 0xa5));
}

/// A refused way back, with the buffer as it was.
fn refused_back(rows: &[u8], room: usize, number: u64, place: u64) {
    let mut buffer = vec![0xa5; room];
    assert_eq!(write_flags(&A, 0, rows, &mut buffer), Err(Refusal { number, place }));
    assert!(buffer.iter().all(|&byte| byte == 0xa5));
}

#[test]
fn p1() {
    check(&A, 0, &[0], &[(0, 0, 6, 6, 0, 0)]);
}

#[test]
fn p2() {
    check(&A, 0, &P2_FLAGS, &P2);
    assert_eq!(table(&P2)[8..16], [0x20, 0, 0, 0, 5, 5, 1, 0]);
}

#[test]
fn p3_and_p4() {
    let p3 = [(0, 0, 3, 5, 1, 1), (8, 0, 4, 5, 1, 1), (24, 0, 3, 5, 1, 1), P2[1], P2[2], P2[3]];
    check(&A, 0, &[1, 1, 0, 1, 0, 0, 0, 0, 0, 0, 0], &p3);
    let middle = [(8, 0, 2, 5, 1, 2), (12, 0, 3, 5, 1, 2), (20, 0, 2, 5, 1, 2)];
    let p4 = [&p3[..1], &middle, &p3[2..]].concat();
    check(&A, 0, &[1, 1, 0, 1, 0, 0, 1, 1, 0, 0, 0, 0, 0, 0, 0], &p4);
}

#[test]
fn p5() {
    let settings = Settings { width: 72, ..A };
    let rows =
        [(64, 0, 3, 5, 1, 2), (64, 32, 3, 4, 2, 1), (64, 48, 3, 3, 3, 0), (64, 56, 3, 3, 3, 0)];
    check(&settings, 1, &[0, 0, 1, 0, 0, 1, 0, 0], &rows);
}

#[test]
fn p6() {
    let settings = Settings::from([128, 4, 8, 3, 128, 64, 128, 128]);
    let rows = [(0, 0, 7, 6, 0, 1), (0, 64, 6, 6, 0, 2), (64, 64, 6, 6, 0, 2)];
    check(&settings, 0, &[1, 0, 0, 0, 1, 0, 0], &rows);
}

#[test]
fn p7() {
    let settings = Settings::from([32, 4, 32, 0, 32, 32, 32, 32]);
    check(&settings, 0, &[], &[(0, 0, 5, 5, 0, 0)]);
}

#[test]
fn p8_to_p10() {
    refused(&A, &[], 100, 11, 0);
    refused(&A, &[0, 0], 100, 13, 1);
    refused_back(&[], 100, 27, 0);
}

#[test]
fn examples_of_the_test_program() {
    refused(&A, &[2], 100, 12, 0);
    refused(&A, &[1, 0, 0, 0], 100, 11, 4);
    refused(&A, &P2_FLAGS, 31, 14, 4);
    assert_eq!(read_unit(&A, 0, &P2_FLAGS, &mut [0; 32]), Ok(4));
    // The quarters have a fixed order, so the first of two exchanged rows fits no tree.
    for (first, second) in [(0, 1), (0, 2), (0, 3), (1, 2), (1, 3), (2, 3)] {
        let mut exchanged = P2;
        exchanged.swap(first, second);
        refused_back(&table(&exchanged), 100, 16, first as u64);
    }
    refused(&Settings { width: 68, ..A }, &[0], 100, 7, 0);
    let open = |width| Session::open(Settings { min_qt: 16, max_mtt: 0, width, ..A });
    assert_eq!(open(72), Err(Refusal { number: 9, place: 0 }));
    assert!(open(80).is_ok());
}

#[test]
fn way_back_refusals() {
    let table = table(&P2);
    assert_eq!(write_flags(&A, 1, &table, &mut [0; 5]), Err(Refusal { number: 10, place: 0 }));
    refused_back(&table[..31], 5, 15, 3);
    refused_back(&table, 4, 17, 5);
    refused_back(&table, 0, 17, 5);
    // The first in the order of the checks.
    refused_back(&table[..24], 0, 27, 3);
    refused_back(&[&table[..], &table[..1]].concat(), 0, 15, 4);
}

/// P4: a row that another tree would have there, and what follows that tree has not.
#[test]
fn tables_that_stop_being_a_tree() {
    let p4 = [
        (0, 0, 3, 5, 1, 1),
        (8, 0, 2, 5, 1, 2),
        (12, 0, 3, 5, 1, 2),
        (20, 0, 2, 5, 1, 2),
        (24, 0, 3, 5, 1, 1),
        P2[1],
        P2[2],
        P2[3],
    ];
    for rows in 0..8 {
        refused_back(&table(&p4[..rows]), 100, 27, rows as u64);
    }
    for more in [P2[3], P2[0], (0, 0, 0, 0, 0, 0)] {
        refused_back(&table(&[&p4[..], &[more]].concat()), 100, 28, 8);
    }
    refused_back(&table(&p4.repeat(200)), 100, 28, 8);
    let changed = |row: usize, fields| {
        let mut changed = p4;
        changed[row] = fields;
        table(&changed)
    };
    // The middle part may not be halved in the same direction.
    refused_back(&changed(1, (8, 0, 3, 5, 1, 2)), 100, 16, 1);
    // It may be a leaf, as in P3, and then the row at (24, 0) follows.
    refused_back(&changed(1, (8, 0, 4, 5, 1, 1)), 100, 16, 2);
    // The first quarter as a whole, and then the second follows.
    refused_back(&changed(0, P2[0]), 100, 16, 1);
    refused_back(&changed(7, (32, 32, 5, 5, 0, 0)), 100, 16, 7);
}
