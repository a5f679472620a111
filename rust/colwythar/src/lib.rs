//! Safe wrapper of Colwythar, a proved engine for the coding tree of H.266, and of H.265.
//!
//! The engine turns the split flags of one unit into its table of coding blocks, and a table back
//! into the flags. Everything that it refuses has a number and a place; a refused call leaves
//! buffers, session and accounts as they were.
//!
//! A picture is read unit by unit through a [`Session`]:
//!
//! ```
//! use colwythar::{rows, Session, Settings, MAX_ROWS};
//!
//! let settings = Settings {
//!     ctu: 64, min_cb: 4, min_qt: 8, max_mtt: 3, max_bt: 32, max_tt: 32, width: 128, height: 64,
//! };
//! let mut session = Session::open(settings)?;
//! let mut table = [0u8; 8 * MAX_ROWS];
//!
//! let count = session.unit(0, &[1, 0, 0, 0, 0], &mut table)?;
//! let blocks: Vec<_> = rows(&table[..8 * count]).collect();
//! assert_eq!(blocks.len(), 4);
//! assert_eq!((blocks[1].x, blocks[1].y, blocks[1].width()), (32, 0, 32));
//!
//! session.unit(1, &[0], &mut table)?;
//! assert!(session.is_complete());
//! # Ok::<(), colwythar::Refusal>(())
//! ```
//!
//! Single units need no session: [`read_unit`] and [`write_flags`], and [`page()`], which prints the
//! rows as lines of text; [`compare()`] says which of two tables of a unit is finer. Cameras that share
//! memory for their rows are a [`Bank`], which grants the units of their sessions. Pictures in H.265 have
//! settings of their own: [`h265`].
//!
//! The static library is looked for in the folder `COLWYTHAR_LIB_DIR`, else in the repository's
//! `target/staticlib`, where the build script has it proved and built anew whenever its sources change.
#![warn(missing_docs)]

mod bank;
mod coding;
mod compare;
pub mod h265;
mod page;
pub mod raw;
mod refusal;
mod row;
mod session;
mod settings;

pub use bank::{Account, Bank};
pub use coding::Coding;
pub use compare::{compare, Finer};
pub use page::{page, page_text, LINE_BYTES, MAX_PAGE_BYTES};
pub use refusal::Refusal;
pub use row::{rows, Row};
pub use session::Session;
pub use settings::Settings;

/// No unit has more rows; in H.265 far fewer ([`h265::MAX_ROWS`]).
pub const MAX_ROWS: usize = 1_024;

/// No unit has more flags: in H.266, 110 with CTU side 32, 446 with 64 and 1,786 with 128
/// ([`Settings::max_flags`]), in H.265 far fewer ([`h265::MAX_FLAGS`]).
pub const MAX_FLAGS: usize = 1_786;

/// No unit with so many rows has more flags: 4 for each row, less 2; 0 for no rows, which no unit
/// has.
///
/// A flag buffer of this length is never too short for [`write_flags`]. For 1 to 64 rows some unit
/// of H.266 fills it. Where [`Settings::max_flags`] is smaller, that is enough.
///
/// ```
/// use colwythar::{max_flags_of_rows, write_flags, Settings};
///
/// // A picture half as wide as its unit: one row, and two flags.
/// let settings = Settings {
///     ctu: 64, min_cb: 4, min_qt: 8, max_mtt: 3, max_bt: 64, max_tt: 32, width: 32, height: 64,
/// };
/// let mut flags = [7; max_flags_of_rows(1)];
/// assert_eq!(write_flags(&settings, 0, &[0, 0, 0, 0, 5, 6, 0, 1], &mut flags), Ok(2));
/// assert_eq!(flags, [0, 0]);
/// ```
pub const fn max_flags_of_rows(rows: usize) -> usize {
    rows.saturating_mul(4).saturating_sub(2)
}

/// Reads one unit's flags, writes its rows and answers how many.
///
/// A row takes 8 bytes; bytes of `rows` past the answer stay as they were.
///
/// ```
/// use colwythar::{read_unit, Settings};
///
/// let settings = Settings {
///     ctu: 64, min_cb: 4, min_qt: 8, max_mtt: 3, max_bt: 32, max_tt: 32, width: 64, height: 64,
/// };
/// let mut rows = [0; 32];
/// assert_eq!(read_unit(&settings, 0, &[1, 0, 0, 0, 0], &mut rows), Ok(4));
/// assert_eq!(rows[8..16], [0x20, 0, 0, 0, 5, 5, 1, 0]);
///
/// let refusal = read_unit(&settings, 0, &[1, 0, 0, 0], &mut rows).unwrap_err();
/// assert_eq!((refusal.number, refusal.place), (11, 4));
/// ```
///
/// # Errors
///
/// Numbers 1 to 14; for H.265 34, 35, 7, 8 and 10 to 14.
pub fn read_unit(
    settings: &impl Coding,
    address: u64,
    flags: &[u8],
    rows: &mut [u8],
) -> Result<usize, Refusal> {
    Refusal::check(settings.raw_read_unit(address, flags, rows))
}

/// Writes the flags that give exactly these rows and answers how many.
///
/// Bytes of `flags` past the answer stay as they were. A buffer of [`max_flags_of_rows`],
/// [`MAX_FLAGS`] or [`Settings::max_flags`] ([`h265::Settings::max_flags`]) bytes is never too short.
///
/// ```
/// use colwythar::{write_flags, Settings};
///
/// let settings = Settings {
///     ctu: 64, min_cb: 4, min_qt: 8, max_mtt: 3, max_bt: 32, max_tt: 32, width: 64, height: 64,
/// };
/// let mut flags = [7; 2];
/// assert_eq!(write_flags(&settings, 0, &[0, 0, 0, 0, 6, 6, 0, 0], &mut flags), Ok(1));
/// assert_eq!(flags, [0, 7]);
/// ```
///
/// # Errors
///
/// Numbers 1 to 10, 15, 27, 28, 16 and 17; for H.265 34, 35, 7 and 8 in place of 1 to 9. Those for rows
/// that no flags give are explained at [`Refusal`].
pub fn write_flags(
    settings: &impl Coding,
    address: u64,
    rows: &[u8],
    flags: &mut [u8],
) -> Result<usize, Refusal> {
    Refusal::check(settings.raw_write_flags(address, rows, flags))
}
