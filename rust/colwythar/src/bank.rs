//! A bank of cameras that share memory for the rows of a picture period.

use crate::{raw, Refusal, Session};

/// A camera's account: the rows reserved for it, and those of the tables granted to it in this period.
#[repr(C)]
#[derive(Clone, Copy, Debug, PartialEq, Eq, Hash)]
pub struct Account {
    /// The rows reserved for the camera.
    pub share: u32,
    /// The rows used.
    pub used: u32,
}

/// Cameras that share memory for a limit of rows in a picture period, each with an [`Account`].
///
/// What the limit has beyond the sum of the shares is common. A camera may have the unused rows of its
/// share and what is left of the common part; what it uses beyond its share is drawn from that.
///
/// An account counts 32 bits of rows: where the limit is above 4,294,967,295, a camera may have at most
/// that number less the rows used.
///
/// Proved of the engine's grants and new periods on one list of accounts, after a new period. A bank
/// begins as a new period leaves it, and nothing else changes its accounts:
/// - the used rows of all cameras are together the rows of the tables granted since the last new period;
/// - they never exceed the limit;
/// - where the shares sum to at most the limit, no table within its camera's unused share is refused with
///   36 or 38, whatever the other cameras did.
///
/// ```
/// use colwythar::{Bank, Session, Settings};
///
/// // Two cameras with a share of 3 rows each, and 2 rows in common.
/// let mut bank = Bank::new(8, &[3, 3]);
/// let settings = Settings {
///     ctu: 64, min_cb: 4, min_qt: 8, max_mtt: 3, max_bt: 32, max_tt: 32, width: 128, height: 64,
/// };
/// let mut rows = [0; 32];
/// let mut first = Session::open(settings)?;
/// assert_eq!(bank.grant(0, &mut first, 0, &[1, 0, 0, 0, 0], &mut rows), Ok(4));
///
/// // The first camera has drawn a row, so the second could have 4.
/// let mut second = Session::open(settings)?;
/// assert_eq!(bank.grant(1, &mut second, 0, &[1, 0, 0, 0, 0], &mut rows), Ok(4));
/// let refusal = bank.grant(1, &mut second, 1, &[0], &mut rows).unwrap_err();
/// assert_eq!(refusal.to_string(), "refusal 36: only 0 rows could be had for this camera");
/// assert_eq!((bank.total_use(), second.due()), (8, 1));
///
/// bank.new_period();
/// assert_eq!(bank.grant(1, &mut second, 1, &[0], &mut rows), Ok(1));
/// assert_eq!(bank.total_use(), 1);
/// # Ok::<(), colwythar::Refusal>(())
/// ```
#[derive(Clone, Debug, PartialEq, Eq)]
pub struct Bank {
    limit: u64,
    accounts: Vec<Account>,
}

impl Bank {
    /// A bank for so many rows in a period, with an account for each of these shares, of which nothing is
    /// used. It is never refused: where the shares exceed the limit, each grant is, with 38.
    pub fn new(limit: u64, shares: &[u32]) -> Self {
        let accounts = shares.iter().map(|&share| Account { share, used: 0 }).collect();
        Self { limit, accounts }
    }

    /// The unit call of a camera, counted from 0: reads the unit that is due in its session, writes its
    /// rows and answers how many, where so many could be had. They are then used; a refused call changes
    /// nothing, neither session nor accounts.
    ///
    /// # Errors
    ///
    /// Numbers 37 and 38, then those of [`Session::unit`], 20, 21 and 11 to 14, and 36, whose place is the
    /// rows that could be had.
    #[inline]
    pub fn grant(
        &mut self,
        camera: usize,
        session: &mut Session,
        address: u64,
        flags: &[u8],
        rows: &mut [u8],
    ) -> Result<usize, Refusal> {
        let Self { limit, ref mut accounts } = *self;
        let claim = raw::Claim { accounts, camera: camera as u64, limit };
        let (settings, due) = session.parts();
        Refusal::check(raw::grant(&settings.to_array(), due, address, flags, rows, claim))
    }

    /// A new picture period: nothing is used, and the shares are as they were.
    pub fn new_period(&mut self) {
        raw::new_period(&mut self.accounts);
    }

    /// The rows of a period.
    pub fn limit(&self) -> u64 {
        self.limit
    }

    /// The accounts, in the order of the cameras.
    pub fn accounts(&self) -> &[Account] {
        &self.accounts
    }

    /// The used rows of all cameras together: the rows of the tables granted in this period.
    pub fn total_use(&self) -> u64 {
        self.accounts.iter().map(|account| u64::from(account.used)).sum()
    }
}
