//! Sessions: the order of units, and refusals in between.

use std::fmt::Debug;

use colwythar::{raw, Coding, Refusal, Session, Settings};

use crate::A;

/// A call that is refused and leaves session and buffer as they were.
pub fn refused<S: Coding + Debug + PartialEq>(
    session: &mut Session<S>,
    address: u64,
    flags: &[u8],
    room: usize,
    number: u64,
    place: u64,
) {
    let before = session.clone();
    let mut rows = vec![0xa5; room];
    assert_eq!(session.unit(address, flags, &mut rows), Err(Refusal { number, place }));
    assert_eq!(*session, before);
    assert!(rows.iter().all(|&byte| byte == 0xa5));
}

#[test]
fn units_in_order() {
    let settings = Settings { width: 128, height: 72, ..A };
    let mut session = Session::open(settings).expect("valid settings");
    assert_eq!((session.due(), session.unit_count()), (0, 4));
    assert_eq!(*session.settings(), settings);
    let mut rows = [0; 512];
    for address in 0..4 {
        assert!(!session.is_complete());
        refused(&mut session, address + 1, &[0], 512, 21, address);
        refused(&mut session, u64::MAX, &[0], 512, 21, address);
        let flags: &[u8] = if address < 2 { &[0] } else { &[0, 0, 0, 0] };
        refused(&mut session, address, &[], 512, 11, 0);
        refused(&mut session, address, &[2], 512, 12, 0);
        refused(&mut session, address, &[flags, &[9]].concat(), 512, 13, flags.len() as u64);
        refused(&mut session, address, flags, 7, 14, if address < 2 { 1 } else { 2 });
        assert!(session.unit(address, flags, &mut rows).is_ok());
        assert_eq!(session.due(), address + 1);
    }
    assert!(session.is_complete());
    refused(&mut session, 4, &[0], 512, 20, 0);
    refused(&mut session, 0, &[2], 0, 20, 0);
}

#[test]
fn openings() {
    let cases = [
        (1, Settings { ctu: 16, ..A }),
        (2, Settings { min_cb: 2, ..A }),
        (3, Settings { min_qt: 12, ..A }),
        (4, Settings { max_mtt: 9, ..A }),
        (5, Settings { max_bt: 128, ..A }),
        (6, Settings { max_tt: 4, ..A }),
        (7, Settings { width: 0, ..A }),
        (8, Settings { height: 16_392, ..A }),
        (9, Settings { min_qt: 16, max_mtt: 0, height: 72, ..A }),
    ];
    for (number, settings) in cases {
        let refusal = Refusal { number, place: 0 };
        assert_eq!(Session::open(settings), Err(refusal));
        assert_eq!(settings.unit_count(), Err(refusal));
        let mut due = 5;
        assert_eq!(raw::open(&settings.to_array(), &mut due), [number, 0]);
        assert_eq!(due, 5);
    }
    let mut due = 5;
    assert_eq!(raw::open(&A.to_array(), &mut due), [0, 0]);
    assert_eq!(due, 0);
    assert_eq!(A.unit_count(), Ok(1));
}

#[test]
fn forged_sessions() {
    let settings = A.to_array();
    let mut rows = [0xa5; 64];
    for forged in [2, 3, u64::MAX] {
        let mut due = forged;
        assert_eq!(raw::unit(&settings, &mut due, forged, &[0], &mut rows), [22, 0]);
        assert_eq!(due, forged);
    }
    let mut due = 1;
    assert_eq!(raw::unit(&settings, &mut due, 1, &[0], &mut rows), [20, 0]);
    let broken = Settings { min_cb: 3, ..A }.to_array();
    assert_eq!(raw::unit(&broken, &mut due, 1, &[0], &mut rows), [22, 0]);
    assert_eq!((due, rows), (1, [0xa5; 64]));
}
