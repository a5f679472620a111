//! Sessions: the order of units, and refusals in between.

use h265::{open, unit, Settings};

/// A call that is refused and leaves the address due and the buffer as they were.
fn refused(settings: &Settings, due: u64, address: u64, flags: &[u8], expected: (u64, u64)) {
    let (mut after, mut rows) = (due, [0xa5; 9]);
    assert_eq!(unit(settings, &mut after, address, flags, &mut rows), expected);
    assert_eq!((after, rows), (due, [0xa5; 9]));
}

#[test]
fn units_in_order() {
    let settings = [32, 8, 64, 32];
    let (mut due, mut rows) = (9, [0; 64]);
    assert_eq!(open(&settings, &mut due), (0, 0));
    assert_eq!(due, 0);
    refused(&settings, due, 1, &[0], (21, 0));
    assert_eq!(unit(&settings, &mut due, 0, &[0], &mut rows), (0, 1));
    assert_eq!(rows[..8], [0, 0, 0, 0, 5, 5, 0, 0]);
    refused(&settings, due, 0, &[0], (21, 1));
    refused(&settings, due, 1, &[], (11, 0));
    refused(&settings, due, 1, &[2], (12, 0));
    refused(&settings, due, 1, &[0, 0], (13, 1));
    refused(&settings, due, 1, &[1, 0, 0, 0, 0], (14, 4));
    assert_eq!(unit(&settings, &mut due, 1, &[1, 0, 0, 0, 0], &mut rows), (0, 4));
    assert_eq!(rows[..8], [32, 0, 0, 0, 4, 4, 1, 0]);
    assert_eq!(due, 2);
    refused(&settings, due, 2, &[0], (20, 0));
    refused(&settings, due, 0, &[9], (20, 0));
}

#[test]
fn forged_sessions() {
    let settings = [32, 8, 64, 32];
    for due in [3, 4, 1 << 32, u64::MAX] {
        refused(&settings, due, due, &[0], (22, 0));
    }
    for broken in [[128, 8, 64, 32], [32, 4, 64, 32], [32, 8, 65, 32], [32, 8, 64, 0], [0; 4]] {
        for due in [0, 1, u64::MAX] {
            refused(&broken, due, due, &[0], (22, 0));
        }
    }
}
