//! The engine's calls on a bank, whose accounts are lent between guards.

use colwythar::{raw, Account};
use h266::{Answer, Bank, Settings};

/// Accounts on each side that no call may touch.
const GUARDS: [Account; 8] = [Account { share: 0x5a5a_5a5a, used: 0xa5a5_a5a5 }; 8];

/// The engine's grant.
pub(crate) fn grant(
    bank: &mut Bank,
    camera: u64,
    settings: &Settings,
    due: &mut u64,
    address: u64,
    flags: &[u8],
    rows: &mut [u8],
) -> Answer {
    let limit = bank.limit;
    lend(bank, |accounts| {
        let claim = raw::Claim { accounts, camera, limit };
        raw::grant(settings, due, address, flags, rows, claim).into()
    })
}

/// The engine's new period.
pub(crate) fn new_period(bank: &mut Bank) {
    lend(bank, raw::new_period);
}

/// Lends the accounts of a bank to a call and puts back what it leaves.
fn lend<T>(bank: &mut Bank, call: impl FnOnce(&mut [Account]) -> T) -> T {
    let own = bank.accounts.iter().map(|&h266::Account { share, used }| Account { share, used });
    let mut list: Vec<Account> = GUARDS.into_iter().chain(own).chain(GUARDS).collect();
    let (first, end) = (GUARDS.len(), GUARDS.len() + bank.accounts.len());
    let result = call(&mut list[first..end]);
    assert!(list[..first] == GUARDS, "accounts before the list changed");
    assert!(list[end..] == GUARDS, "accounts past the list changed");
    let left =
        list[first..end].iter().map(|&Account { share, used }| h266::Account { share, used });
    bank.accounts = left.collect();
    result
}
