//! The page of a unit: its rows as lines of text.

use crate::{raw, Refusal, Settings, MAX_ROWS};

/// The bytes of a line, its line feed among them.
pub const LINE_BYTES: usize = 33;

/// No unit has a longer page.
pub const MAX_PAGE_BYTES: usize = MAX_ROWS * LINE_BYTES;

/// Prints the rows of a unit, a line for each, and answers how many bytes that are. Only rows that
/// some flags give are printed.
///
/// A line has the unit's address, x and y in 6 columns each, width and height in samples in 4 each,
/// QT and MTT depth in 3 each, right-aligned with spaces, and a line feed: [`LINE_BYTES`]. Bytes of
/// `page` past the answer stay as they were. A page of [`MAX_PAGE_BYTES`] is never too short.
///
/// ```
/// use colwythar::{page, read_unit, Settings};
///
/// let settings = Settings {
///     ctu: 64, min_cb: 4, min_qt: 8, max_mtt: 3, max_bt: 32, max_tt: 32, width: 64, height: 64,
/// };
/// let mut rows = [0; 32];
/// assert_eq!(read_unit(&settings, 0, &[1, 0, 0, 0, 0], &mut rows), Ok(4));
///
/// let mut lines = [0; 132];
/// assert_eq!(page(&settings, 0, &rows, &mut lines), Ok(132));
/// assert_eq!(lines[33..66], *b"     0    32     0  32  32  1  0\n");
///
/// let refusal = page(&settings, 0, &rows, &mut [0; 131]).unwrap_err();
/// assert_eq!((refusal.number, refusal.place), (23, 132));
/// ```
///
/// # Errors
///
/// Numbers 1 to 10, 15, 27, 28, 16 and 23.
pub fn page(
    settings: &Settings,
    address: u64,
    rows: &[u8],
    page: &mut [u8],
) -> Result<usize, Refusal> {
    Refusal::check(raw::page(&settings.to_array(), address, rows, page))
}

/// The page of a unit as text: the bytes that [`page()`] gives.
///
/// ```
/// use colwythar::{page_text, read_unit, Settings};
///
/// let settings = Settings {
///     ctu: 64, min_cb: 4, min_qt: 8, max_mtt: 3, max_bt: 32, max_tt: 32, width: 64, height: 64,
/// };
/// let mut rows = [0; 32];
/// assert_eq!(read_unit(&settings, 0, &[1, 0, 0, 0, 0], &mut rows), Ok(4));
///
/// let text = page_text(&settings, 0, &rows)?;
/// assert_eq!(text.lines().nth(1), Some("     0    32     0  32  32  1  0"));
/// # Ok::<(), colwythar::Refusal>(())
/// ```
///
/// # Errors
///
/// Numbers 1 to 10, 15, 27, 28 and 16.
pub fn page_text(settings: &Settings, address: u64, rows: &[u8]) -> Result<String, Refusal> {
    // A table with more rows than any unit has is refused before the length is looked at.
    let room = LINE_BYTES.saturating_mul(rows.len() / 8).min(MAX_PAGE_BYTES);
    let mut lines = vec![0; room];
    let count = page(settings, address, rows, &mut lines)?;
    lines.truncate(count);
    Ok(String::from_utf8(lines).expect("a page is ASCII"))
}
