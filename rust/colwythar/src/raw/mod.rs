//! The C interface itself, with slices in place of pointers.
//!
//! An answer is two numbers: 0 and the count where the call is accepted, else the number of the
//! refusal and its place. Settings are the eight numbers in the order of [`crate::Settings`]; [`h265`]
//! has the functions for H.265.
//!
//! ```
//! let settings = [64, 4, 8, 3, 32, 32, 64, 64];
//! let mut rows = [0; 8];
//! let mut due = 7;
//! assert_eq!(colwythar::raw::open(&settings, &mut due), [0, 0]);
//! assert_eq!(due, 0);
//! assert_eq!(colwythar::raw::unit_count(&settings), [0, 1]);
//! assert_eq!(colwythar::raw::read_unit(&settings, 0, &[0], &mut rows), [0, 1]);
//! assert_eq!(colwythar::raw::read_unit(&settings, 0, &[0, 0], &mut rows), [13, 1]);
//! ```

mod c;
mod calls;
pub mod h265;

use crate::Account;

/// `colwythar_read_unit`.
#[inline]
pub fn read_unit(settings: &[u32; 8], address: u64, flags: &[u8], rows: &mut [u8]) -> [u64; 2] {
    calls::on_unit(c::colwythar_read_unit, settings, address, flags, rows)
}

/// `colwythar_write_flags`.
#[inline]
pub fn write_flags(settings: &[u32; 8], address: u64, rows: &[u8], flags: &mut [u8]) -> [u64; 2] {
    calls::on_unit(c::colwythar_write_flags, settings, address, rows, flags)
}

/// `colwythar_page`.
#[inline]
pub fn page(settings: &[u32; 8], address: u64, rows: &[u8], page: &mut [u8]) -> [u64; 2] {
    calls::on_unit(c::colwythar_page, settings, address, rows, page)
}

/// `colwythar_compare`. In place of a count an accepted call answers 0 for equal blocks, 1 where the
/// first table is finer, 2 where the second is, and 3 where neither is.
///
/// ```
/// let settings = [64, 4, 8, 3, 32, 32, 64, 64];
/// let whole = [0, 0, 0, 0, 6, 6, 0, 0];
/// assert_eq!(colwythar::raw::compare(&settings, 0, &whole, &whole), [0, 0]);
/// assert_eq!(colwythar::raw::compare(&settings, 0, &whole, &[]), [27, 0]);
/// ```
#[inline]
pub fn compare(settings: &[u32; 8], address: u64, first: &[u8], second: &[u8]) -> [u64; 2] {
    calls::on_tables(c::colwythar_compare, settings, address, first, second)
}

/// `colwythar_open`. `due` is set where the opening is accepted, and left as it was where not.
#[inline]
pub fn open(settings: &[u32; 8], due: &mut u64) -> [u64; 2] {
    calls::open(c::colwythar_open, settings, due)
}

/// `colwythar_unit_count`.
#[inline]
pub fn unit_count(settings: &[u32; 8]) -> [u64; 2] {
    calls::unit_count(c::colwythar_unit_count, settings)
}

/// `colwythar_unit`. `due` is the session's address due, which an accepted call moves on.
#[inline]
pub fn unit(
    settings: &[u32; 8],
    due: &mut u64,
    address: u64,
    flags: &[u8],
    rows: &mut [u8],
) -> [u64; 2] {
    calls::unit(c::colwythar_unit, settings, due, address, flags, rows)
}

/// What a grant takes besides the unit call.
#[derive(Debug)]
pub struct Claim<'a> {
    /// The accounts, one for each camera.
    pub accounts: &'a mut [Account],
    /// Which of them is the camera's, counted from 0.
    pub camera: u64,
    /// The rows that the cameras share in a period.
    pub limit: u64,
}

/// `colwythar_grant`. An accepted call moves `due` on and adds its rows to those that the camera used.
///
/// ```
/// use colwythar::{raw, Account};
///
/// let settings = [64, 4, 8, 3, 32, 32, 64, 64];
/// let mut accounts = [Account { share: 2, used: 1 }, Account { share: 3, used: 4 }];
/// let (mut due, mut rows) = (0, [0; 8]);
/// let claim = raw::Claim { accounts: &mut accounts, camera: 0, limit: 6 };
/// assert_eq!(raw::grant(&settings, &mut due, 0, &[0], &mut rows, claim), [0, 1]);
/// assert_eq!((due, accounts[0].used), (1, 2));
/// raw::new_period(&mut accounts);
/// assert_eq!(accounts[1], Account { share: 3, used: 0 });
/// ```
#[inline]
pub fn grant(
    settings: &[u32; 8],
    due: &mut u64,
    address: u64,
    flags: &[u8],
    rows: &mut [u8],
    claim: Claim,
) -> [u64; 2] {
    calls::grant(c::colwythar_grant, settings, due, address, flags, rows, claim)
}

/// `colwythar_new_period`.
#[inline]
pub fn new_period(accounts: &mut [Account]) {
    calls::on_accounts(c::colwythar_new_period, accounts);
}
