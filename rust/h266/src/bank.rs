//! One allowance of rows for a bank of cameras, written from the paragraph that asks for it; that a use is
//! counted in 32 bits, and no table granted that it can't count, is the interface's.

use crate::{unit, Answer, Refusal, Settings, MAX_ROWS};

/// A camera's account.
#[derive(Clone, Copy, Debug, PartialEq, Eq)]
pub struct Account {
    /// The rows reserved for the camera.
    pub share: u32,
    /// The rows used in this period.
    pub used: u32,
}

impl Account {
    /// The rows of the share that are not used.
    fn unused(&self) -> u128 {
        self.share.saturating_sub(self.used).into()
    }

    /// The rows used beyond the share, which are drawn from the common part.
    fn drawn(&self) -> u128 {
        self.used.saturating_sub(self.share).into()
    }

    /// The rows that can be counted as used, besides those that are.
    fn countable(&self) -> u128 {
        (u32::MAX - self.used).into()
    }
}

/// Cameras that share memory for so many rows in a picture period.
///
/// Sums are of 128 bits, so that none is too large for any list of accounts.
///
/// ```
/// use h266::{Account, Bank};
///
/// let settings = [64, 4, 8, 3, 32, 32, 64, 64];
/// let accounts = vec![Account { share: 2, used: 0 }, Account { share: 1, used: 0 }];
/// let mut bank = Bank { limit: 5, accounts };
/// let mut rows = [0; 32];
/// // Two rows of the share, and the two that are common.
/// assert_eq!(bank.grant(0, &settings, &mut 0, 0, &[1, 0, 0, 0, 0], &mut rows), (0, 4));
/// assert_eq!(bank.grant(1, &settings, &mut 0, 0, &[1, 0, 0, 0, 0], &mut rows), (36, 1));
/// ```
#[derive(Clone, Debug, PartialEq, Eq)]
pub struct Bank {
    /// L, the rows of a picture period.
    pub limit: u64,
    /// One account for each camera.
    pub accounts: Vec<Account>,
}

impl Bank {
    /// The unit call, for one camera of the bank.
    ///
    /// Accepted: `(0, rows written)`. Refused: 37, 38, 22, 20, 21, a number from 11 to 14, or 36, and its
    /// place.
    pub fn grant(
        &mut self,
        camera: u64,
        settings: &Settings,
        due: &mut u64,
        address: u64,
        flags: &[u8],
        rows: &mut [u8],
    ) -> Answer {
        let account = match self.account(camera) {
            Ok(account) => account,
            Err(number) => return (number, 0),
        };
        let (mut next, mut table) = (*due, [0; 8 * MAX_ROWS]);
        let count = match unit(settings, &mut next, address, flags, &mut table) {
            (0, count) => count as usize,
            refused => return refused,
        };
        match self.allot(account, count, rows) {
            Ok(lent) => lent.copy_from_slice(&table[..8 * count]),
            Err(refusal) => return Refusal::answer(Err(refusal)),
        }
        self.accounts[account].used += count as u32;
        *due = next;
        (0, count as u64)
    }

    /// A new picture period: all use is 0.
    pub fn new_period(&mut self) {
        for account in &mut self.accounts {
            account.used = 0;
        }
    }

    /// The place of a camera's account, where the accounts fit the limit: refusals 37 and 38.
    fn account(&self, camera: u64) -> Result<usize, u64> {
        let account = (0..self.accounts.len()).find(|&at| at as u64 == camera).ok_or(37_u64)?;
        if self.shares() > self.limit.into() || self.drawn() > self.common() {
            return Err(38);
        }
        Ok(account)
    }

    /// The part of a buffer for a table of so many rows, where the camera may have them: refusals 14
    /// and 36.
    fn allot<'a>(
        &self,
        account: usize,
        count: usize,
        rows: &'a mut [u8],
    ) -> Result<&'a mut [u8], Refusal> {
        let lent = rows.get_mut(..8 * count).ok_or(Refusal::new(14, count))?;
        let account = &self.accounts[account];
        let left = self.common() - self.drawn();
        let could_be_had = (account.unused() + left).min(account.countable());
        if count as u128 <= could_be_had {
            return Ok(lent);
        }
        // Less than the rows of a table.
        Err(Refusal::new(36, could_be_had as usize))
    }

    /// All shares together.
    fn shares(&self) -> u128 {
        self.accounts.iter().map(|account| u128::from(account.share)).sum()
    }

    /// What no camera has as its share, where the shares don't exceed the limit.
    fn common(&self) -> u128 {
        u128::from(self.limit) - self.shares()
    }

    /// What all cameras drew from the common part.
    fn drawn(&self) -> u128 {
        self.accounts.iter().map(Account::drawn).sum()
    }
}
