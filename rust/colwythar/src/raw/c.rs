//! The functions of `include/colwythar.h`. A pointer to settings says how many they are.

use crate::Account;

/// Declares the functions that both codings have, with this number of settings.
macro_rules! functions {
    ($count:literal, $read_unit:ident, $write_flags:ident, $unit_count:ident, $open:ident, $unit:ident) => {
        extern "C" {
            pub fn $read_unit(
                settings: *const [u32; $count],
                address: u64,
                flags: *const u8,
                flags_len: usize,
                rows: *mut u8,
                rows_len: usize,
                answer: *mut u64,
            );
            pub fn $write_flags(
                settings: *const [u32; $count],
                address: u64,
                rows: *const u8,
                rows_len: usize,
                flags: *mut u8,
                flags_len: usize,
                answer: *mut u64,
            );
            pub fn $unit_count(settings: *const [u32; $count], answer: *mut u64);
            pub fn $open(settings: *const [u32; $count], due: *mut u64, answer: *mut u64);
            pub fn $unit(
                settings: *const [u32; $count],
                due: *mut u64,
                address: u64,
                flags: *const u8,
                flags_len: usize,
                rows: *mut u8,
                rows_len: usize,
                answer: *mut u64,
            );
        }
    };
}

functions!(
    8,
    colwythar_read_unit,
    colwythar_write_flags,
    colwythar_unit_count,
    colwythar_open,
    colwythar_unit
);

functions!(
    4,
    colwythar_h265_read_unit,
    colwythar_h265_write_flags,
    colwythar_h265_unit_count,
    colwythar_h265_open,
    colwythar_h265_unit
);

extern "C" {
    pub fn colwythar_page(
        settings: *const [u32; 8],
        address: u64,
        rows: *const u8,
        rows_len: usize,
        page: *mut u8,
        page_len: usize,
        answer: *mut u64,
    );
    pub fn colwythar_compare(
        settings: *const [u32; 8],
        address: u64,
        first: *const u8,
        first_len: usize,
        second: *const u8,
        second_len: usize,
        answer: *mut u64,
    );
    pub fn colwythar_grant(
        settings: *const [u32; 8],
        due: *mut u64,
        address: u64,
        flags: *const u8,
        flags_len: usize,
        rows: *mut u8,
        rows_len: usize,
        accounts: *mut Account,
        accounts_len: usize,
        camera: u64,
        limit: u64,
        answer: *mut u64,
    );
    pub fn colwythar_new_period(accounts: *mut Account, accounts_len: usize);
}
