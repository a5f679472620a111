//! The two codings, which their settings tell apart.

use crate::{h265, raw, Refusal, Settings};

/// The settings of a picture in H.266, [`crate::Settings`], or in H.265, [`crate::h265::Settings`]:
/// they say which of the engine's functions a call goes to. No other type is a coding.
pub trait Coding: Functions {}

impl<S: Functions> Coding for S {}

/// The engine's functions for pictures with such settings, as [`raw`] has them. Outside this crate nobody
/// can name it, so that no other type has it.
pub trait Functions: Copy {
    fn raw_read_unit(&self, address: u64, flags: &[u8], rows: &mut [u8]) -> [u64; 2];
    fn raw_write_flags(&self, address: u64, rows: &[u8], flags: &mut [u8]) -> [u64; 2];
    fn raw_unit_count(&self) -> [u64; 2];
    fn raw_open(&self, due: &mut u64) -> [u64; 2];
    fn raw_unit(&self, due: &mut u64, address: u64, flags: &[u8], rows: &mut [u8]) -> [u64; 2];
}

/// How many units the picture has.
pub(crate) fn unit_count(settings: &impl Functions) -> Result<u64, Refusal> {
    Refusal::check(settings.raw_unit_count()).map(|count| count as u64)
}

impl Functions for Settings {
    #[inline]
    fn raw_read_unit(&self, address: u64, flags: &[u8], rows: &mut [u8]) -> [u64; 2] {
        raw::read_unit(&self.to_array(), address, flags, rows)
    }

    #[inline]
    fn raw_write_flags(&self, address: u64, rows: &[u8], flags: &mut [u8]) -> [u64; 2] {
        raw::write_flags(&self.to_array(), address, rows, flags)
    }

    #[inline]
    fn raw_unit_count(&self) -> [u64; 2] {
        raw::unit_count(&self.to_array())
    }

    #[inline]
    fn raw_open(&self, due: &mut u64) -> [u64; 2] {
        raw::open(&self.to_array(), due)
    }

    #[inline]
    fn raw_unit(&self, due: &mut u64, address: u64, flags: &[u8], rows: &mut [u8]) -> [u64; 2] {
        raw::unit(&self.to_array(), due, address, flags, rows)
    }
}

impl Functions for h265::Settings {
    #[inline]
    fn raw_read_unit(&self, address: u64, flags: &[u8], rows: &mut [u8]) -> [u64; 2] {
        raw::h265::read_unit(&self.to_array(), address, flags, rows)
    }

    #[inline]
    fn raw_write_flags(&self, address: u64, rows: &[u8], flags: &mut [u8]) -> [u64; 2] {
        raw::h265::write_flags(&self.to_array(), address, rows, flags)
    }

    #[inline]
    fn raw_unit_count(&self) -> [u64; 2] {
        raw::h265::unit_count(&self.to_array())
    }

    #[inline]
    fn raw_open(&self, due: &mut u64) -> [u64; 2] {
        raw::h265::open(&self.to_array(), due)
    }

    #[inline]
    fn raw_unit(&self, due: &mut u64, address: u64, flags: &[u8], rows: &mut [u8]) -> [u64; 2] {
        raw::h265::unit(&self.to_array(), due, address, flags, rows)
    }
}
