//! Grants of the engine beside those of `h266`.

use differential::{banks, Entry, UnitCall};
use h266::{Account, Bank};
use samples::Rng;

use crate::H266;

/// Lists of calls on random banks, with accounts overwritten now and then; R-12's laws.
#[test]
fn lists_of_calls() {
    let (mut engine, mut rng) = (H266::default(), Rng::new(123));
    for _ in 0..4_000 {
        banks::list(&mut engine, &mut rng);
    }
    let tally = &engine.tally;
    println!("{tally}");
    assert!(tally.calls() >= 200_000, "{tally}");
    tally.assert_each(Entry::Grant, 200);
    tally.assert_each(Entry::NewPeriod, 5_000);
    for number in [0, 36, 37, 38] {
        assert!(tally.of(Entry::Grant, number) >= 10_000, "{tally}");
    }
    assert!(tally.grants.drew >= 5_000 && tally.grants.kept >= 3_000, "{tally}");
}

/// Units of 1 to 4 rows in a picture of 32 by 32: whole, in two, in three and in four.
const UNITS: [&[u8]; 4] = [&[0], &[1, 0, 0, 1, 0, 0], &[1, 0, 0, 0, 0, 0, 0], &[1, 1, 0, 0, 0, 0]];

/// Every account with a share below 4 and a use below 5.
fn small_accounts() -> impl Iterator<Item = Account> + Clone {
    (0..4).flat_map(|share| (0..5).map(move |used| Account { share, used }))
}

/// Every bank of two such accounts with a limit of at most 8, and every camera and unit; the buffer is
/// exact, or a byte short.
#[test]
fn every_small_bank() {
    let (mut engine, mut rng) = (H266::default(), Rng::new(124));
    let settings = [32, 4, 8, 3, 32, 32, 32, 32];
    let lists = small_accounts().flat_map(|one| small_accounts().map(move |other| [one, other]));
    for (list, limit) in lists.flat_map(|list| (0..=8).map(move |limit| (list, limit))) {
        for (camera, rows) in (0..3).flat_map(|camera| (1..=4).map(move |rows| (camera, rows))) {
            for room in [8 * rows, 8 * rows - 1] {
                let call = UnitCall { address: 0, flags: UNITS[rows - 1].to_vec(), room };
                let (mut due, mut bank) = (0, Bank { limit, accounts: list.to_vec() });
                engine.grant(&mut rng, &settings, &mut due, &mut bank, camera, &call);
            }
        }
        engine.new_period(&mut Bank { limit, accounts: list.to_vec() });
    }
    let tally = &engine.tally;
    println!("{tally}");
    let of = |number| tally.of(Entry::Grant, number);
    // 400 lists, 9 limits, 4 units, 2 buffers; the third camera has no account.
    assert_eq!(of(37), 400 * 9 * 4 * 2, "{tally}");
    // Of the others, 38 is the same for both buffers; else 14 for the short one, and 0 or 36 for the exact.
    assert_eq!(of(14) + of(38) / 2, 400 * 9 * 4 * 2, "{tally}");
    assert_eq!(of(0) + of(36), of(14), "{tally}");
    assert!([0, 14, 36, 38].map(of).iter().all(|&times| times >= 1_000), "{tally}");
}

/// 5,000 accounts of the greatest numbers: the sum of the shares, 21,474,836,475,000, just fits the limit or
/// does not, and so does the sum of what is drawn.
#[test]
fn many_cameras() {
    let (mut engine, mut rng) = (H266::default(), Rng::new(125));
    let settings = [32, 4, 8, 3, 32, 32, 32, 32];
    let sum = 21_474_836_475_000;
    let mut grant = |(share, used), limit, camera| {
        let mut bank = Bank { limit, accounts: vec![Account { share, used }; 5_000] };
        let call = UnitCall { address: 0, flags: vec![0], room: 8 };
        let outcome = engine.grant(&mut rng, &settings, &mut 0, &mut bank, camera, &call);
        (outcome.number, outcome.value)
    };
    for camera in [0, 2_500, 4_999] {
        assert_eq!(grant((u32::MAX, 0), sum - 1, camera), (38, 0));
        assert_eq!(grant((u32::MAX, 0), sum, camera), (0, 1));
        assert_eq!(grant((u32::MAX, u32::MAX - 1), sum, camera), (0, 1));
        assert_eq!(grant((0, u32::MAX), sum - 1, camera), (38, 0));
        assert_eq!(grant((0, u32::MAX), sum, camera), (36, 0));
    }
    assert_eq!(grant((u32::MAX, 0), sum, 5_000), (37, 0));
}
