//! Random banks of cameras.

use h266::{Account, Bank};

use crate::Rng;

/// How many rows a share has at most: fewer than most units, more than most, or any number.
const SCALES: [u32; 5] = [4, 30, 200, 1_500, u32::MAX];

/// A bank of 0 to 8 cameras. Its numbers are mostly small, now and then the greatest; mostly the shares
/// sum to at most the limit.
pub fn bank(rng: &mut Rng) -> Bank {
    let (cameras, scale) = (rng.below(9), rng.pick(&SCALES));
    let accounts: Vec<Account> = (0..cameras).map(|_| account(rng, scale)).collect();
    Bank { limit: limit(rng, &accounts, scale), accounts }
}

/// A number up to this one, often at an end.
fn number(rng: &mut Rng, most: u32) -> u32 {
    match rng.below(6) {
        0 => 0,
        1 => most - rng.below_u32(most.min(1_500)),
        _ => (rng.draw() % (u64::from(most) + 1)) as u32,
    }
}

/// An account whose use is often near its share.
fn account(rng: &mut Rng, scale: u32) -> Account {
    let share = number(rng, scale);
    let used = match rng.below(3) {
        0 => number(rng, scale),
        1 => share.saturating_add(rng.below_u32(4)),
        _ => share - rng.below_u32(share.min(1_500) + 1),
    };
    Account { share, used }
}

/// A limit around the sum of the shares, or at an end of all numbers.
fn limit(rng: &mut Rng, accounts: &[Account], scale: u32) -> u64 {
    let shares: u64 = accounts.iter().map(|account| u64::from(account.share)).sum();
    match rng.below(10) {
        0 => shares.saturating_sub(1 + rng.draw() % 4),
        1 => shares,
        2 => rng.pick(&[0, 1 << 32, u32::MAX.into(), u64::MAX - 1, u64::MAX]),
        _ => shares + rng.draw() % (4 * u64::from(scale)),
    }
}

/// Writes another account over one of a bank's, or only its use.
pub fn overwrite(rng: &mut Rng, bank: &mut Bank) {
    if bank.accounts.is_empty() {
        return;
    }
    let at = rng.below(bank.accounts.len());
    let scale = rng.pick(&SCALES);
    let new = account(rng, scale);
    let old = &mut bank.accounts[at];
    match rng.below(5) {
        0 => *old = new,
        1 => old.used = new.used,
        2 => old.used = u32::MAX - rng.below_u32(64),
        _ => old.used = old.share.saturating_add(rng.below_u32(8)),
    }
}
