//! Grants to cameras; what is expected was worked out by hand from the paper.

use h266::{Account, Bank, Settings};
use samples::paper::{examples, Example, A};

/// A bank of accounts, each a share and the rows used.
fn bank(limit: u64, accounts: &[(u32, u32)]) -> Bank {
    let accounts = accounts.iter().map(|&(share, used)| Account { share, used }).collect();
    Bank { limit, accounts }
}

/// A unit of A of 1, 4, 6 or 8 rows: P1 to P4.
fn unit(rows: usize) -> Example {
    let mut units = examples().into_iter().take(4);
    units.find(|example| example.rows.len() == 8 * rows).expect("a unit of so many rows")
}

/// Asks for a unit of so many rows, and asserts what is answered. A granted table is written and used, and
/// the next unit is due; a refusal leaves all as it was.
fn grant(bank: &mut Bank, camera: u64, rows: usize, expected: (u64, u64)) {
    let (mut after, mut due, mut lent) = (bank.clone(), 0, [0xa5; 80]);
    let example = unit(rows);
    let answer = bank.grant(camera, &A, &mut due, 0, example.flags, &mut lent);
    assert_eq!(answer, expected, "camera {camera}, {rows} rows, {after:?}");
    let written = if answer.0 == 0 { 8 * rows } else { 0 };
    if answer.0 == 0 {
        after.accounts[camera as usize].used += rows as u32;
    }
    assert_eq!((&*bank, due), (&after, u64::from(answer.0 == 0)));
    assert_eq!(lent[..written], example.rows[..written]);
    assert!(lent[written..].iter().all(|&byte| byte == 0xa5));
}

/// The rows used, by camera.
fn used(bank: &Bank) -> Vec<u32> {
    bank.accounts.iter().map(|account| account.used).collect()
}

/// Shares of 10 rows in all, and 10 rows in common.
#[test]
fn four_cameras() {
    let mut bank = bank(20, &[(4, 0), (4, 0), (2, 0), (0, 0)]);
    grant(&mut bank, 0, 4, (0, 4));
    // All 8 are drawn, and 2 are left.
    grant(&mut bank, 0, 8, (0, 8));
    grant(&mut bank, 3, 4, (36, 2));
    grant(&mut bank, 3, 1, (0, 1));
    // 1 is left, and this camera's share of 4.
    grant(&mut bank, 1, 6, (36, 5));
    grant(&mut bank, 1, 4, (0, 4));
    grant(&mut bank, 1, 6, (36, 1));
    grant(&mut bank, 2, 4, (36, 3));
    for _ in 0..3 {
        grant(&mut bank, 2, 1, (0, 1));
    }
    for camera in 0..4 {
        grant(&mut bank, camera, 1, (36, 0));
    }
    // 20 together.
    assert_eq!(used(&bank), [12, 4, 3, 1]);
}

#[test]
fn a_new_period() {
    let mut bank = bank(6, &[(2, 5), (1, 0), (0, u32::MAX)]);
    bank.new_period();
    assert_eq!(bank, self::bank(6, &[(2, 0), (1, 0), (0, 0)]));
    // 3 are common.
    grant(&mut bank, 2, 4, (36, 3));
    grant(&mut bank, 0, 4, (0, 4));
    grant(&mut bank, 1, 4, (36, 2));
    bank.new_period();
    grant(&mut bank, 1, 4, (0, 4));
    assert_eq!(used(&bank), [0, 4, 0]);
}

/// First of all, whatever the accounts are.
#[test]
fn no_account() {
    for camera in [0, 1, 1 << 32, u64::MAX] {
        grant(&mut bank(9, &[]), camera, 1, (37, 0));
    }
    for camera in [2, 3, (1 << 32) + 1, u64::MAX] {
        grant(&mut bank(9, &[(4, 0), (4, 0)]), camera, 1, (37, 0));
        grant(&mut bank(0, &[(4, 0), (4, 9)]), camera, 1, (37, 0));
    }
}

#[test]
fn shares_that_exceed_the_limit() {
    for camera in 0..2 {
        grant(&mut bank(7, &[(4, 0), (4, 0)]), camera, 1, (38, 0));
        grant(&mut bank(8, &[(4, 0), (4, 0)]), camera, 4, (0, 4));
        grant(&mut bank(8, &[(4, 0), (4, 0)]), camera, 6, (36, 4));
    }
}

#[test]
fn an_overdrawn_common_part() {
    // 2 are common, and 3 are drawn.
    grant(&mut bank(10, &[(4, 7), (4, 0)]), 1, 4, (38, 0));
    grant(&mut bank(10, &[(4, 5), (4, 6)]), 1, 4, (38, 0));
    // 3 are common and drawn.
    grant(&mut bank(11, &[(4, 7), (4, 0)]), 1, 4, (0, 4));
    grant(&mut bank(11, &[(4, 7), (4, 0)]), 0, 1, (36, 0));
    grant(&mut bank(11, &[(4, 5), (4, 6)]), 1, 1, (36, 0));
    // Rows within a share are not drawn.
    grant(&mut bank(10, &[(4, 6), (4, 4)]), 1, 1, (36, 0));
    grant(&mut bank(11, &[(4, 6), (4, 4)]), 1, 1, (0, 1));
}

#[test]
fn wide_sums() {
    let full = u32::MAX;
    // 5 x 4,294,967,295 = 21,474,836,475.
    for limit in [0, 4, 4_294_967_295, 21_474_836_474] {
        grant(&mut bank(limit, &[(full, 0); 5]), 4, 1, (38, 0));
        grant(&mut bank(limit, &[(0, full); 5]), 4, 1, (38, 0));
    }
    for limit in [21_474_836_475, u64::MAX] {
        grant(&mut bank(limit, &[(full, 0); 5]), 4, 1, (0, 1));
        grant(&mut bank(limit, &[(full, full); 5]), 4, 1, (36, 0));
        grant(&mut bank(limit, &[(0, full); 5]), 4, 1, (36, 0));
    }
    // An account counts to 4,294,967,295.
    grant(&mut bank(u64::MAX, &[(1, full - 5)]), 0, 6, (36, 5));
    grant(&mut bank(u64::MAX, &[(1, full - 6)]), 0, 6, (0, 6));
    grant(&mut bank(4_294_967_295, &[(1, full - 6)]), 0, 6, (0, 6));
    grant(&mut bank(4_294_967_294, &[(1, full - 6)]), 0, 6, (36, 5));
}

/// Accounts with these limits: 38 at 2, no row could be had at 3, and 4 at 7.
const ACCOUNTS: [(u32, u32); 2] = [(1, 1), (2, 0)];

/// Asks for camera 0, at the address 1.
fn refused(limit: u64, settings: &Settings, due: u64, flags: &[u8], room: usize, with: (u64, u64)) {
    let (mut bank, mut after, mut lent) = (bank(limit, &ACCOUNTS), due, vec![0xa5; room]);
    assert_eq!(bank.grant(0, settings, &mut after, 1, flags, &mut lent), with);
    assert_eq!((bank, after), (self::bank(limit, &ACCOUNTS), due));
    assert!(lent.iter().all(|&byte| byte == 0xa5));
}

/// 38 before the unit call's own refusals, and 36 after them.
#[test]
fn refusals_in_order() {
    let two = [64, 4, 8, 3, 32, 32, 128, 64];
    let bad = [48, 4, 8, 3, 32, 32, 128, 64];
    let six = unit(6).flags;
    for (settings, due, flags, room, own) in [
        (&bad, 1, six, 48, (22, 0)),
        (&two, 3, six, 48, (22, 0)),
        (&two, 2, six, 48, (20, 0)),
        (&two, 0, six, 48, (21, 0)),
        (&two, 1, &six[..10], 48, (11, 10)),
        (&two, 1, &[1, 3], 48, (12, 1)),
        (&two, 1, &[0, 0, 0], 48, (13, 1)),
        (&two, 1, six, 47, (14, 6)),
        (&two, 1, six, 0, (14, 6)),
    ] {
        refused(2, settings, due, flags, room, (38, 0));
        refused(3, settings, due, flags, room, own);
        refused(7, settings, due, flags, room, own);
    }
    refused(3, &two, 1, six, 48, (36, 0));
    refused(7, &two, 1, six, 48, (36, 4));
}
