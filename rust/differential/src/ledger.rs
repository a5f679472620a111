//! R-12's laws, over calls on one list of accounts.

use h266::{Account, Bank};

use crate::Outcome;

/// What the laws need to know of the calls on a bank since its last new period.
#[derive(Debug, Default)]
pub struct Ledger {
    /// The rows of the tables granted, if there was a new period and calls alone changed the accounts.
    granted: Option<u64>,
}

/// The sum of these numbers of all accounts.
fn sum(bank: &Bank, number: impl Fn(&Account) -> u32) -> u128 {
    bank.accounts.iter().map(|account| u128::from(number(account))).sum()
}

/// The rows reserved for all cameras.
fn shares(bank: &Bank) -> u128 {
    sum(bank, |account| account.share)
}

/// The rows that are drawn from the common part.
pub(crate) fn drawn(bank: &Bank) -> u128 {
    sum(bank, |account| account.used - account.used.min(account.share))
}

/// What is left of the common part; the shares and what is drawn are at most the limit.
pub(crate) fn left(bank: &Bank) -> u128 {
    u128::from(bank.limit) - shares(bank) - drawn(bank)
}

/// What is left of an account's share.
pub(crate) fn unused(account: &Account) -> u32 {
    account.share - account.share.min(account.used)
}

impl Ledger {
    /// Asserts the law of a new period.
    pub fn new_period(&mut self, after: &Bank) {
        self.granted = Some(0);
        self.assert_total(after);
    }

    /// Somebody else changed the accounts.
    pub fn overwritten(&mut self) {
        self.granted = None;
    }

    /// Asserts the laws of a grant: of its outcome and the banks before and after it. `rows` are those of the
    /// table, where the unit call alone gives one. Answers whether it was granted although the common part
    /// had too little left, as the law of shares has it.
    pub fn grant(
        &mut self,
        camera: u64,
        rows: Option<u64>,
        outcome: &Outcome,
        [before, after]: [&Bank; 2],
    ) -> bool {
        let Some(granted) = &mut self.granted else { return false };
        if outcome.number == 0 {
            *granted += outcome.value;
        }
        self.assert_total(after);
        if shares(before) > before.limit.into() {
            return false;
        }
        let number = outcome.number;
        assert_ne!(number, 38, "shares that the limit holds: {before:?} {camera}");
        let unused = before.accounts.get(camera as usize).map(unused);
        let is_within = rows.zip(unused).is_some_and(|(rows, unused)| rows <= unused.into());
        assert!(!is_within || number != 36, "36 within a share: {before:?} {camera}");
        number == 0 && is_within && u128::from(outcome.value) > left(before)
    }

    /// Total use equals the rows granted, and does not exceed the limit.
    fn assert_total(&self, bank: &Bank) {
        let total = sum(bank, |account| account.used);
        assert_eq!(Some(total), self.granted.map(u128::from), "the rows granted to {bank:?}");
        assert!(total <= bank.limit.into(), "more is used than the limit: {bank:?}");
    }
}
