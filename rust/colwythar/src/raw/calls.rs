//! Calls of the C interface with slices in place of pointers. A coding has `N` settings, and its
//! functions are called with no other number of them.

use super::Claim;
use crate::Account;

/// A function that takes flags or rows of a unit, and a lent buffer.
pub type OnUnit<const N: usize> =
    unsafe extern "C" fn(*const [u32; N], u64, *const u8, usize, *mut u8, usize, *mut u64);

/// A function that takes two tables of a unit, and writes nothing but its answer.
pub type OnTables<const N: usize> =
    unsafe extern "C" fn(*const [u32; N], u64, *const u8, usize, *const u8, usize, *mut u64);

/// A function that opens a session.
pub type Open<const N: usize> = unsafe extern "C" fn(*const [u32; N], *mut u64, *mut u64);

/// A function of the settings alone.
pub type Count<const N: usize> = unsafe extern "C" fn(*const [u32; N], *mut u64);

/// A function that reads a unit of a session.
pub type Unit<const N: usize> = unsafe extern "C" fn(
    *const [u32; N],
    *mut u64,
    u64,
    *const u8,
    usize,
    *mut u8,
    usize,
    *mut u64,
);

/// A function that reads a unit of a session where the accounts grant it.
pub type Grant<const N: usize> = unsafe extern "C" fn(
    *const [u32; N],
    *mut u64,
    u64,
    *const u8,
    usize,
    *mut u8,
    usize,
    *mut Account,
    usize,
    u64,
    u64,
    *mut u64,
);

/// A function of accounts alone.
pub type OnAccounts = unsafe extern "C" fn(*mut Account, usize);

#[inline(always)]
pub fn on_unit<const N: usize>(
    function: OnUnit<N>,
    settings: &[u32; N],
    address: u64,
    given: &[u8],
    lent: &mut [u8],
) -> [u64; 2] {
    let mut answer = [0; 2];
    // SAFETY: `function` is one of the engine's, which touches no more than it is lent; each pointer
    // comes with its own length or fixed size, and the borrows keep the lent memory apart and alive
    // during the call.
    unsafe {
        function(
            settings,
            address,
            given.as_ptr(),
            given.len(),
            lent.as_mut_ptr(),
            lent.len(),
            answer.as_mut_ptr(),
        );
    }
    answer
}

#[inline(always)]
pub fn on_tables<const N: usize>(
    function: OnTables<N>,
    settings: &[u32; N],
    address: u64,
    first: &[u8],
    second: &[u8],
) -> [u64; 2] {
    let mut answer = [0; 2];
    // SAFETY: as in `on_unit`; both tables are only read, so they may be the same memory.
    unsafe {
        function(
            settings,
            address,
            first.as_ptr(),
            first.len(),
            second.as_ptr(),
            second.len(),
            answer.as_mut_ptr(),
        );
    }
    answer
}

#[inline(always)]
pub fn open<const N: usize>(function: Open<N>, settings: &[u32; N], due: &mut u64) -> [u64; 2] {
    let mut answer = [0; 2];
    // SAFETY: as in `on_unit`; each pointer has its fixed size, and the borrows keep them apart.
    unsafe { function(settings, due, answer.as_mut_ptr()) };
    answer
}

#[inline(always)]
pub fn unit_count<const N: usize>(function: Count<N>, settings: &[u32; N]) -> [u64; 2] {
    let mut answer = [0; 2];
    // SAFETY: as in `on_unit`; both pointers have their fixed size.
    unsafe { function(settings, answer.as_mut_ptr()) };
    answer
}

#[inline(always)]
pub fn unit<const N: usize>(
    function: Unit<N>,
    settings: &[u32; N],
    due: &mut u64,
    address: u64,
    flags: &[u8],
    rows: &mut [u8],
) -> [u64; 2] {
    let mut answer = [0; 2];
    // SAFETY: as in `on_unit`; `due` is borrowed alone.
    unsafe {
        function(
            settings,
            due,
            address,
            flags.as_ptr(),
            flags.len(),
            rows.as_mut_ptr(),
            rows.len(),
            answer.as_mut_ptr(),
        );
    }
    answer
}

#[inline(always)]
pub fn grant<const N: usize>(
    function: Grant<N>,
    settings: &[u32; N],
    due: &mut u64,
    address: u64,
    flags: &[u8],
    rows: &mut [u8],
    claim: Claim,
) -> [u64; 2] {
    let Claim { accounts, camera, limit } = claim;
    let mut answer = [0; 2];
    // SAFETY: as in `on_unit`; `due` and the accounts are borrowed alone, and an account is laid out as in C.
    unsafe {
        function(
            settings,
            due,
            address,
            flags.as_ptr(),
            flags.len(),
            rows.as_mut_ptr(),
            rows.len(),
            accounts.as_mut_ptr(),
            accounts.len(),
            camera,
            limit,
            answer.as_mut_ptr(),
        );
    }
    answer
}

#[inline(always)]
pub fn on_accounts(function: OnAccounts, accounts: &mut [Account]) {
    // SAFETY: as in `grant`.
    unsafe { function(accounts.as_mut_ptr(), accounts.len()) };
}
