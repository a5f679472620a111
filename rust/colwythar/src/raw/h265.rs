//! The functions for H.265. Settings are the four numbers in the order of [`crate::h265::Settings`].
//!
//! ```
//! let settings = [16, 8, 32, 16];
//! let mut rows = [0; 8];
//! assert_eq!(colwythar::raw::h265::unit_count(&settings), [0, 2]);
//! assert_eq!(colwythar::raw::h265::read_unit(&settings, 1, &[0], &mut rows), [0, 1]);
//! assert_eq!(rows, [16, 0, 0, 0, 4, 4, 0, 0]);
//! ```

use super::{c, calls};

/// `colwythar_h265_read_unit`.
#[inline]
pub fn read_unit(settings: &[u32; 4], address: u64, flags: &[u8], rows: &mut [u8]) -> [u64; 2] {
    calls::on_unit(c::colwythar_h265_read_unit, settings, address, flags, rows)
}

/// `colwythar_h265_write_flags`.
#[inline]
pub fn write_flags(settings: &[u32; 4], address: u64, rows: &[u8], flags: &mut [u8]) -> [u64; 2] {
    calls::on_unit(c::colwythar_h265_write_flags, settings, address, rows, flags)
}

/// `colwythar_h265_open`. `due` is set where the opening is accepted, and left as it was where not.
#[inline]
pub fn open(settings: &[u32; 4], due: &mut u64) -> [u64; 2] {
    calls::open(c::colwythar_h265_open, settings, due)
}

/// `colwythar_h265_unit_count`.
#[inline]
pub fn unit_count(settings: &[u32; 4]) -> [u64; 2] {
    calls::unit_count(c::colwythar_h265_unit_count, settings)
}

/// `colwythar_h265_unit`. `due` is the session's address due, which an accepted call moves on.
#[inline]
pub fn unit(
    settings: &[u32; 4],
    due: &mut u64,
    address: u64,
    flags: &[u8],
    rows: &mut [u8],
) -> [u64; 2] {
    calls::unit(c::colwythar_h265_unit, settings, due, address, flags, rows)
}
