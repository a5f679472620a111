//! Grants of a bank of cameras; the answers were worked out by hand.

use colwythar::{raw, Account, Bank, Refusal, Session, Settings};

use crate::paper::{table, P2};
use crate::A;

/// Pictures of 16 units of 64 by 64, side by side.
const PICTURE: Settings = Settings { width: 1_024, ..A };

/// The flags of units of 1, 4 and 6 rows: P1, P2 and P3.
const ONE: [u8; 1] = [0];
const FOUR: [u8; 5] = [1, 0, 0, 0, 0];
const SIX: [u8; 11] = [1, 1, 0, 1, 0, 0, 0, 0, 0, 0, 0];

fn refusal(number: u64, place: u64) -> Result<usize, Refusal> {
    Err(Refusal { number, place })
}

/// A bank, and a session for each of its cameras and one more.
struct Cameras {
    bank: Bank,
    sessions: Vec<Session>,
}

impl Cameras {
    fn new(limit: u64, shares: &[u32]) -> Self {
        let session = Session::open(PICTURE).expect("valid settings");
        let sessions = vec![session; shares.len() + 1];
        Self { bank: Bank::new(limit, shares), sessions }
    }

    /// Asks for the unit due and asserts the answer: a granted table is used, and moves the session on; a
    /// refusal leaves all as it was.
    fn grant(&mut self, camera: usize, flags: &[u8], expected: Result<usize, Refusal>) {
        let (due, shares, mut used) = (self.sessions[camera].due(), self.shares(), self.used());
        let mut rows = [0xa5; 100];
        let got = self.bank.grant(camera, &mut self.sessions[camera], due, flags, &mut rows);
        assert_eq!(got, expected);
        let count = expected.unwrap_or(0);
        if count > 0 {
            used[camera] += count as u32;
        }
        assert_eq!(self.sessions[camera].due(), due + u64::from(count > 0));
        assert_eq!((self.shares(), self.used()), (shares, used));
        assert!(rows[8 * count..].iter().all(|&byte| byte == 0xa5));
    }

    fn used(&self) -> Vec<u32> {
        self.bank.accounts().iter().map(|account| account.used).collect()
    }

    fn shares(&self) -> Vec<u32> {
        self.bank.accounts().iter().map(|account| account.share).collect()
    }
}

/// 9 rows are reserved, and 7 are common.
#[test]
fn four_cameras() {
    let mut cameras = Cameras::new(16, &[5, 3, 0, 1]);
    cameras.grant(0, &FOUR, Ok(4));
    // One row of the share, and three of the common part.
    cameras.grant(0, &FOUR, Ok(4));
    cameras.grant(2, &SIX, refusal(36, 4));
    cameras.grant(2, &FOUR, Ok(4));
    // Nothing is left in common; the other shares are there.
    cameras.grant(0, &ONE, refusal(36, 0));
    cameras.grant(1, &FOUR, refusal(36, 3));
    for _ in 0..3 {
        cameras.grant(1, &ONE, Ok(1));
    }
    cameras.grant(1, &ONE, refusal(36, 0));
    cameras.grant(3, &ONE, Ok(1));
    assert_eq!((cameras.used(), cameras.bank.total_use()), (vec![8, 3, 4, 1], 16));
    cameras.bank.new_period();
    assert_eq!((cameras.used(), cameras.shares()), (vec![0; 4], vec![5, 3, 0, 1]));
    assert_eq!((cameras.bank.total_use(), cameras.bank.limit()), (0, 16));
    cameras.grant(2, &SIX, Ok(6));
}

/// Whatever the first camera does, the second has its share.
#[test]
fn a_share_is_kept() {
    let mut cameras = Cameras::new(9, &[0, 4]);
    for _ in 0..5 {
        cameras.grant(0, &ONE, Ok(1));
    }
    cameras.grant(0, &ONE, refusal(36, 0));
    cameras.grant(1, &FOUR, Ok(4));
}

#[test]
fn a_camera_without_an_account() {
    // The shares exceed the limit, too, and the flags end too early.
    let mut cameras = Cameras::new(0, &[1]);
    cameras.grant(1, &[], refusal(37, 0));
    Cameras::new(9, &[]).grant(0, &ONE, refusal(37, 0));
    let Cameras { mut bank, mut sessions } = Cameras::new(9, &[4, 4]);
    let (was, mut rows) = (bank.clone(), [0xa5; 8]);
    for camera in [2, 3, 1 << 32, usize::MAX] {
        let answer = bank.grant(camera, &mut sessions[2], 0, &ONE, &mut rows);
        assert_eq!((answer, sessions[2].due()), (refusal(37, 0), 0));
        assert_eq!((&bank, rows), (&was, [0xa5; 8]));
    }
}

#[test]
fn shares_that_exceed_the_limit() {
    let mut cameras = Cameras::new(5, &[3, 3]);
    for flags in [&ONE[..], &[], &[2]] {
        cameras.grant(0, flags, refusal(38, 0));
        cameras.bank.new_period();
        cameras.grant(1, flags, refusal(38, 0));
    }
    let mut cameras = Cameras::new(6, &[3, 3]);
    cameras.grant(0, &FOUR, refusal(36, 3));
    cameras.grant(1, &ONE, Ok(1));
}

/// The rows are the unit call's; bytes past them stay.
#[test]
fn rows_of_a_grant() {
    let mut bank = Bank::new(4, &[4]);
    let mut session = Session::open(A).expect("valid settings");
    let mut rows = [0xa5; 40];
    assert_eq!(bank.grant(0, &mut session, 0, &FOUR, &mut rows), Ok(4));
    assert_eq!(rows[..32], table(&P2));
    assert_eq!(rows[32..], [0xa5; 8]);
    assert!(session.is_complete());
    assert_eq!(bank.accounts(), [Account { share: 4, used: 4 }]);
}

/// An account from its share and use.
fn account((share, used): (u32, u32)) -> Account {
    Account { share, used }
}

/// Asserts what the camera's grant of P2's unit answers, and its use afterwards.
fn of_four(accounts: &[(u32, u32)], camera: usize, limit: u64, answer: [u64; 2]) {
    let mut accounts: Vec<Account> = accounts.iter().copied().map(account).collect();
    let mut expected = accounts.clone();
    if answer == [0, 4] {
        expected[camera].used += 4;
    }
    let (mut due, mut rows) = (0, [0xa5; 32]);
    let claim = raw::Claim { accounts: &mut accounts, camera: camera as u64, limit };
    let got = raw::grant(&A.to_array(), &mut due, 0, &FOUR, &mut rows, claim);
    assert_eq!((got, accounts), (answer, expected));
    assert_eq!(due, u64::from(answer[0] == 0));
    assert_eq!(rows == [0xa5; 32], answer[0] != 0);
}

/// Accounts that no grants led to.
#[test]
fn more_drawn_than_the_common_part_has() {
    of_four(&[(3, 4), (4, 0)], 1, 7, [38, 0]);
    of_four(&[(3, 4), (4, 0)], 1, 8, [0, 4]);
    of_four(&[(3, 4), (3, 0)], 1, 7, [36, 3]);
    of_four(&[(0, 5), (0, 6)], 0, 10, [38, 0]);
    of_four(&[(0, 5), (0, 6)], 0, 11, [36, 0]);
    of_four(&[(0, 5), (0, 6)], 0, 15, [0, 4]);
}

#[test]
fn the_greatest_numbers() {
    const MOST: u32 = u32::MAX;
    // 3 x 4,294,967,295.
    let shares = [(MOST, 0); 3];
    of_four(&shares, 2, 12_884_901_884, [38, 0]);
    of_four(&shares, 2, 12_884_901_885, [0, 4]);
    of_four(&shares, 2, 0, [38, 0]);
    // All is drawn, and the limit does or doesn't hold it: 4 x 4,294,967,295.
    of_four(&[(0, MOST); 4], 0, 17_179_869_179, [38, 0]);
    of_four(&[(0, MOST); 4], 0, 17_179_869_180, [36, 0]);
    // A count of used rows takes no more than 4,294,967,295, whatever is left.
    of_four(&[(0, MOST); 4], 0, u64::MAX, [36, 0]);
    of_four(&[(MOST, MOST - 3)], 0, u64::MAX, [36, 3]);
    of_four(&[(7, MOST - 3)], 0, u64::MAX, [36, 3]);
    of_four(&[(7, MOST - 4)], 0, u64::MAX, [0, 4]);
}

/// What is refused in this order, with accounts that grant no row.
#[test]
fn refusals_in_order() {
    let refused = |settings: Settings, mut due: u64, flags: &[u8], room, limit, answer| {
        let mut accounts = [account((2, 2)), account((1, 0))];
        let (before, was, mut rows) = (accounts, due, vec![0xa5; room]);
        let claim = raw::Claim { accounts: &mut accounts, camera: 0, limit };
        let got = raw::grant(&settings.to_array(), &mut due, 1, flags, &mut rows, claim);
        assert_eq!((got, accounts, due), (answer, before, was));
        assert!(rows.iter().all(|&byte| byte == 0xa5));
    };
    let broken = Settings { ctu: 48, ..PICTURE };
    refused(broken, 1, &ONE, 8, 2, [38, 0]);
    refused(broken, 1, &ONE, 8, 3, [22, 0]);
    refused(PICTURE, 17, &ONE, 8, 2, [38, 0]);
    refused(PICTURE, 17, &ONE, 8, 3, [22, 0]);
    refused(PICTURE, 16, &ONE, 8, 3, [20, 0]);
    refused(PICTURE, 5, &ONE, 8, 3, [21, 5]);
    refused(PICTURE, 1, &[], 8, 3, [11, 0]);
    refused(PICTURE, 1, &[2], 8, 3, [12, 0]);
    refused(PICTURE, 1, &[0, 0], 8, 3, [13, 1]);
    refused(PICTURE, 1, &ONE, 7, 3, [14, 1]);
    refused(PICTURE, 1, &ONE, 8, 3, [36, 0]);
    // Also where some rows could be had.
    refused(PICTURE, 1, &FOUR, 31, 6, [14, 4]);
    refused(PICTURE, 1, &FOUR, 32, 6, [36, 3]);
}

#[test]
fn a_new_period_of_any_accounts() {
    raw::new_period(&mut []);
    let mut accounts = [(0, 5), (u32::MAX, u32::MAX), (7, 0)].map(account);
    raw::new_period(&mut accounts);
    assert_eq!(accounts, [(0, 0), (u32::MAX, 0), (7, 0)].map(account));
}
