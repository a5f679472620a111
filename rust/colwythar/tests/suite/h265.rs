//! Pictures in H.265, through the wrapper.

use colwythar::h265::{read_unit, write_flags, Session, Settings, MAX_FLAGS, MAX_ROWS};
use colwythar::{max_flags_of_rows, raw, Refusal};

use crate::paper::{table, Fields, P2};
use crate::session::refused;

/// One unit of 64 by 64.
const ONE: Settings = Settings { ctu: 64, min_cb: 8, width: 64, height: 64 };

/// Both directions, with exact buffers, with longer ones, and with one that is planned for the rows.
fn check(settings: &Settings, address: u64, flags: &[u8], fields: &[Fields]) {
    let rows = table(fields);
    for extra in [0, 1, 100] {
        let mut got = vec![0xa5; rows.len() + extra];
        assert_eq!(read_unit(settings, address, flags, &mut got), Ok(fields.len()));
        assert_eq!(got, [&rows[..], &vec![0xa5; extra]].concat());
        let mut got = vec![0xa5; flags.len() + extra];
        assert_eq!(write_flags(settings, address, &rows, &mut got), Ok(flags.len()));
        assert_eq!(got, [flags, &vec![0xa5; extra]].concat());
    }
    let mut planned = vec![0; max_flags_of_rows(fields.len())];
    assert_eq!(write_flags(settings, address, &rows, &mut planned), Ok(flags.len()));
}

/// A refused way back of the unit, with the buffer as it was.
fn refused_back(settings: &Settings, rows: &[u8], room: usize, number: u64, place: u64) {
    let mut flags = vec![0xa5; room];
    assert_eq!(write_flags(settings, 0, rows, &mut flags), Err(Refusal { number, place }));
    assert!(flags.iter().all(|&byte| byte == 0xa5));
}

#[test]
fn units_inside_and_at_the_edge() {
    check(&ONE, 0, &[0], &[(0, 0, 6, 6, 0, 0)]);
    check(&ONE, 0, &[1, 0, 0, 0, 0], &P2);
    let edge = Settings { width: 80, height: 72, ..ONE };
    let pair = |y| [(64, y, 3, 3, 3, 0), (72, y, 3, 3, 3, 0)];
    // 16 by 64: four blocks of 16 by 16, each with a flag; the last in four.
    let column = [0, 16, 32].map(|y| (64, y, 4, 4, 2, 0));
    check(&edge, 1, &[0, 0, 0, 1], &[&column[..], &pair(48), &pair(56)].concat());
    // 16 by 8: two smallest blocks, without a flag.
    check(&edge, 3, &[], &pair(64));
}

/// Units of blocks of the smallest side fill the buffers that are planned for them.
#[test]
fn units_with_the_most_rows_and_flags() {
    for (ctu, min_cb, most_rows, most_flags) in [
        (16, 8, 4, 1),
        (16, 16, 1, 0),
        (32, 8, 16, 5),
        (32, 16, 4, 1),
        (32, 32, 1, 0),
        (64, 8, MAX_ROWS, MAX_FLAGS),
        (64, 16, 16, 5),
        (64, 32, 4, 1),
        (64, 64, 1, 0),
    ] {
        let settings = Settings { ctu, min_cb, width: ctu, height: ctu };
        assert_eq!((settings.max_rows(), settings.max_flags()), (most_rows, most_flags));
        let mut rows = vec![0; 8 * most_rows];
        let flags = vec![1; most_flags];
        assert_eq!(read_unit(&settings, 0, &flags, &mut rows), Ok(most_rows));
        let mut again = vec![0; most_flags];
        assert_eq!(write_flags(&settings, 0, &rows, &mut again), Ok(most_flags));
        assert_eq!(again, flags);
    }
    assert_eq!(Settings { min_cb: 0, ..ONE }.max_flags(), 0);
}

/// The last of 1,048,576 units.
#[test]
fn the_picture_with_the_most_units() {
    let settings = Settings { ctu: 16, min_cb: 8, width: 16_384, height: 16_384 };
    assert_eq!(settings.unit_count(), Ok(1_048_576));
    check(&settings, 1_048_575, &[0], &[(16_368, 16_368, 4, 4, 0, 0)]);
    let beyond = read_unit(&settings, 1_048_576, &[0], &mut [0; 8]);
    assert_eq!(beyond, Err(Refusal { number: 10, place: 0 }));
}

#[test]
fn settings_that_are_refused() {
    for (settings, number) in [
        (Settings { ctu: 128, min_cb: 4, ..ONE }, 34),
        (Settings { ctu: 8, ..ONE }, 34),
        (Settings { min_cb: 4, width: 1, ..ONE }, 35),
        (Settings { ctu: 16, min_cb: 32, ..ONE }, 35),
        (Settings { min_cb: 12, ..ONE }, 35),
        (Settings { width: 68, height: 0, ..ONE }, 7),
        (Settings { min_cb: 16, width: 72, ..ONE }, 7),
        (Settings { width: 16_392, ..ONE }, 7),
        (Settings { height: 0, ..ONE }, 8),
        (Settings { min_cb: 64, height: 72, ..ONE }, 8),
    ] {
        let refusal = Refusal { number, place: 0 };
        assert_eq!(Session::open(settings), Err(refusal));
        assert_eq!(settings.unit_count(), Err(refusal));
        assert_eq!(read_unit(&settings, 9, &[2], &mut []), Err(refusal));
        refused_back(&settings, &[0; 7], 9, number, 0);
        let numbers = settings.to_array();
        assert_eq!(Settings::from(numbers), settings);
        let mut due = 5;
        assert_eq!((raw::h265::open(&numbers, &mut due), due), ([number, 0], 5));
        assert_eq!(raw::h265::unit(&numbers, &mut due, 5, &[], &mut []), [22, 0]);
    }
}

#[test]
fn tables_that_stop_being_a_tree() {
    refused_back(&ONE, &[], 9, 27, 0);
    refused_back(&ONE, &table(&P2[..3]), 9, 27, 3);
    refused_back(&ONE, &table(&P2)[..31], 9, 15, 3);
    refused_back(&ONE, &table(&[&P2[..], &P2[3..]].concat()), 9, 28, 4);
    refused_back(&ONE, &table(&[P2[0], P2[2], P2[1], P2[3]]), 9, 16, 1);
    refused_back(&ONE, &table(&P2), 4, 17, 5);
    // A tree of H.266: halves.
    refused_back(&ONE, &table(&[(0, 0, 5, 6, 0, 1), (32, 0, 5, 6, 0, 1)]), 9, 16, 0);
    // A block over the edge.
    let edge = Settings { width: 56, ..ONE };
    refused_back(&edge, &table(&[(0, 0, 6, 6, 0, 0)]), 9, 16, 0);
    // Smaller than the smallest side.
    let blocks = Settings { min_cb: 64, ..ONE };
    refused_back(&blocks, &table(&P2), 9, 16, 0);
}

#[test]
fn units_in_order() {
    let settings = Settings { width: 128, ..ONE };
    let mut session = Session::open(settings).expect("valid settings");
    assert_eq!((session.due(), session.unit_count(), *session.settings()), (0, 2, settings));
    let mut rows = [0; 512];
    for address in 0..2 {
        refused(&mut session, address + 1, &[0], 512, 21, address);
        refused(&mut session, address, &[], 512, 11, 0);
        refused(&mut session, address, &[3], 512, 12, 0);
        refused(&mut session, address, &[0, 0], 512, 13, 1);
        refused(&mut session, address, &[0], 7, 14, 1);
        assert_eq!(session.unit(address, &[0], &mut rows), Ok(1));
    }
    assert!(session.is_complete());
    refused(&mut session, 2, &[0], 512, 20, 0);
    for due in [3, u64::MAX] {
        let (numbers, mut forged) = (settings.to_array(), due);
        assert_eq!(raw::h265::unit(&numbers, &mut forged, due, &[0], &mut rows), [22, 0]);
        assert_eq!(forged, due);
    }
}
