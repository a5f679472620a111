//! What the engine answers when it does not accept a call.

use std::error::Error;
use std::fmt;

/// A refusal: its number and its place, 0 where the number has none. In its sentence, M is the
/// greatest depth of binary and ternary splits, and MinCb the smallest side of a coding block; in H.265
/// that is 8 or more, so the larger of 8 and MinCb is MinCb.
///
/// ```
/// use colwythar::Refusal;
///
/// let refusal = Refusal { number: 14, place: 4 };
/// assert_eq!(refusal.to_string(), "refusal 14: the row buffer is too short, 4 rows are needed");
/// let refusal = Refusal { number: 12, place: 2 };
/// assert_eq!(refusal.to_string(), "refusal 12: flag 2, counted from 0, is neither 0 nor 1");
/// ```
///
/// Rows that no flags give are refused with 27, 28 or 16, and the place says where to look:
///
/// | number | the rows | place |
/// |---|---|---|
/// | 27 | are the beginning of a longer table | their number |
/// | 28 | begin with a whole table and go on | its number of rows, and so the first row too many |
/// | 16 | are others | the first row, counted from 0, with which no table of the unit goes on |
///
/// Rows of 16 before the place are the beginning of some table, so what is wrong is the row at the
/// place or one before it that by chance also fits another tree.
///
/// ```
/// use colwythar::{write_flags, Settings};
///
/// let settings = Settings {
///     ctu: 64, min_cb: 4, min_qt: 8, max_mtt: 3, max_bt: 32, max_tt: 32, width: 64, height: 64,
/// };
/// let quarter = |x, y| [x, 0, y, 0, 5, 5, 1, 0];
/// let mut rows = [quarter(0, 0), quarter(32, 0), quarter(0, 32), quarter(32, 32)];
/// assert_eq!(write_flags(&settings, 0, &rows.concat(), &mut [0; 5]), Ok(5));
///
/// let refusal = write_flags(&settings, 0, &rows[..3].concat(), &mut [0; 5]).unwrap_err();
/// assert_eq!((refusal.number, refusal.place), (27, 3));
///
/// rows.swap(2, 3);
/// let refusal = write_flags(&settings, 0, &rows.concat(), &mut [0; 5]).unwrap_err();
/// assert_eq!((refusal.number, refusal.place), (16, 2));
/// ```
#[derive(Clone, Copy, Debug, PartialEq, Eq, Hash)]
pub struct Refusal {
    /// 1 to 17, 20 to 23, 27, 28 or 34 to 38.
    pub number: u64,
    /// Where or how much, according to the number.
    pub place: u64,
}

impl Refusal {
    /// Takes an answer of the C interface apart.
    #[inline]
    pub(crate) fn check(answer: [u64; 2]) -> Result<usize, Self> {
        match answer {
            // A count never exceeds the lent buffer, nor a picture's units or a comparison's 3, so it fits.
            [0, count] => Ok(count as usize),
            [number, place] => Err(Self { number, place }),
        }
    }

    /// The sentence for a number that has no place.
    fn sentence(&self) -> &'static str {
        match self.number {
            1 => "the CTU side is not 32, 64 or 128",
            2 => "MinCb is no power of two from 4 to the smaller of 64 and the CTU side",
            3 => "MinQt is no power of two from MinCb to the smaller of 64 and the CTU side",
            4 => "M is above 2 x (exponent of the CTU side - exponent of MinCb)",
            5 => "MaxBt is no power of two from MinQt to the CTU side",
            6 => "MaxTt is no power of two from MinQt to the smaller of 64 and the CTU side",
            7 => "the width is 0, above 16384, or no multiple of the larger of 8 and MinCb",
            8 => "the height is 0, above 16384, or no multiple of the larger of 8 and MinCb",
            9 => "M is 0, and the width or the height is no multiple of MinQt",
            10 => "the picture has no such unit",
            20 => "the picture is complete",
            22 => "this is no session that an opening or an accepted unit yielded",
            34 => "the CTU side is not 16, 32 or 64",
            35 => "MinCb is no power of two from 8 to the CTU side",
            37 => "the camera has no account",
            38 => "the shares exceed the limit, or the common part is overdrawn",
            _ => "the engine gave an unknown number",
        }
    }
}

impl fmt::Display for Refusal {
    fn fmt(&self, f: &mut fmt::Formatter<'_>) -> fmt::Result {
        let Self { number, place } = self;
        write!(f, "refusal {number}: ")?;
        match number {
            11 => write!(f, "more flags are needed, there are only {place}"),
            12 => write!(f, "flag {place}, counted from 0, is neither 0 nor 1"),
            13 => {
                write!(f, "too many flags, the first that is too many is flag {place}")?;
                f.write_str(", counted from 0")
            }
            14 => write!(f, "the row buffer is too short, {place} rows are needed"),
            15 => write!(f, "the table ends within a row, after {place} whole ones"),
            16 => {
                write!(f, "row {place}, counted from 0, is the first that fits no tree")?;
                f.write_str(" of this unit")
            }
            17 => write!(f, "the flag buffer is too short, {place} flags are needed"),
            21 => write!(f, "another unit is due, unit {place}"),
            23 => write!(f, "the page is too short, {place} bytes are needed"),
            27 => write!(f, "the table ends too early, more rows than {place} are needed"),
            28 => {
                write!(f, "too many rows, the first that is too many is row {place}")?;
                f.write_str(", counted from 0")
            }
            36 => write!(f, "only {place} rows could be had for this camera"),
            _ => f.write_str(self.sentence()),
        }
    }
}

impl Error for Refusal {}
