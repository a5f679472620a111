//! Pictures in H.265, whose tree is a quad tree only.
//!
//! The names are those of H.266, and so are rows, flags, sessions and refusals; the settings are four
//! numbers. A node has a flag where it lies inside the picture and is larger than the smallest block
//! side; where it reaches out of the picture it is split without one. The MTT depth of a row is 0.
//!
//! ```
//! use colwythar::h265::{read_unit, write_flags, Session, Settings, MAX_ROWS};
//! use colwythar::rows;
//!
//! let settings = Settings { ctu: 64, min_cb: 8, width: 72, height: 64 };
//! let mut session = Session::open(settings)?;
//! let mut table = [0; 8 * MAX_ROWS];
//! let count = session.unit(0, &[1, 0, 0, 0, 0], &mut table)?;
//! let sides: Vec<_> = rows(&table[..8 * count]).map(|row| row.width()).collect();
//! assert_eq!(sides, [32; 4]);
//!
//! // Only 8 columns of the second unit lie in the picture: smallest blocks, and no flag.
//! let count = session.unit(1, &[], &mut table)?;
//! assert_eq!(count, 8);
//! assert!(session.is_complete());
//!
//! // Single units need no session.
//! let mut again = [0; 8 * MAX_ROWS];
//! assert_eq!(read_unit(&settings, 1, &[], &mut again), Ok(8));
//! assert_eq!(again, table);
//! assert_eq!(write_flags(&settings, 1, &again[..8 * 8], &mut []), Ok(0));
//! # Ok::<(), colwythar::Refusal>(())
//! ```
//!
//! Settings are refused with 34, 35, 7 and 8, in this order, and where H.266 has 1 to 9 for a call these
//! stand in their place. There is no page of such a unit, its tables are not compared, and no
//! [`Bank`](crate::Bank) grants them.

use crate::{coding, Refusal};
pub use crate::{read_unit, write_flags};

/// No unit in H.265 has more rows: 64 by 64 samples in blocks of 8 by 8. By the settings it is
/// [`Settings::max_rows`].
pub const MAX_ROWS: usize = 64;

/// No unit in H.265 has more flags: one for each node above those blocks. By the settings it is
/// [`Settings::max_flags`].
pub const MAX_FLAGS: usize = 21;

/// A picture in H.265 being read: its settings and the address that is due.
pub type Session = crate::Session<Settings>;

/// The settings of a picture in H.265, in luma samples. Nothing is checked before a call.
///
/// ```
/// use colwythar::h265::Settings;
///
/// let settings = Settings::from([16, 8, 1920, 1080]);
/// assert_eq!((settings.ctu, settings.min_cb), (16, 8));
/// assert_eq!(settings.to_array()[3], settings.height);
/// // 120 units across and 68 down, the last of which reach over the edge.
/// assert_eq!(settings.unit_count(), Ok(8160));
///
/// let refusal = Settings { ctu: 128, ..settings }.unit_count().unwrap_err();
/// assert_eq!(refusal.to_string(), "refusal 34: the CTU side is not 16, 32 or 64");
/// ```
#[derive(Clone, Copy, Debug, PartialEq, Eq, Hash)]
pub struct Settings {
    /// CTU side: 16, 32 or 64.
    pub ctu: u32,
    /// MinCb, the smallest side of a coding block: a power of two from 8 to the CTU side.
    pub min_cb: u32,
    /// Picture width: a multiple of the smallest side.
    pub width: u32,
    /// Picture height: likewise.
    pub height: u32,
}

impl Settings {
    /// The settings in the order of the C interface.
    #[inline]
    pub fn to_array(&self) -> [u32; 4] {
        let Self { ctu, min_cb, width, height } = *self;
        [ctu, min_cb, width, height]
    }

    /// The side of the picture's pipeline units: the smaller of 64 and the CTU side, which is the CTU
    /// side wherever the settings pass, so that a pipeline unit is a unit.
    #[inline]
    pub fn pipeline_side(&self) -> u32 {
        self.ctu.min(64)
    }

    /// The most rows of a unit: the blocks of the smallest side in it.
    ///
    /// A row buffer of 8 bytes for each is never too short. Nothing is checked here.
    ///
    /// ```
    /// use colwythar::h265::{Settings, MAX_FLAGS, MAX_ROWS};
    ///
    /// let settings = Settings::from([64, 8, 1920, 1080]);
    /// assert_eq!((settings.max_rows(), settings.max_flags()), (MAX_ROWS, MAX_FLAGS));
    /// let coarse = Settings { min_cb: 32, ..settings };
    /// assert_eq!((coarse.max_rows(), coarse.max_flags()), (4, 1));
    /// ```
    #[inline]
    pub fn max_rows(&self) -> usize {
        let across = self.ctu.checked_div(self.min_cb).unwrap_or(0) as usize;
        across.saturating_mul(across)
    }

    /// The most flags of a unit: the nodes above the blocks of the smallest side.
    ///
    /// A flag buffer of this length is never too short. Nothing is checked here.
    #[inline]
    pub fn max_flags(&self) -> usize {
        self.max_rows().saturating_sub(1) / 3
    }

    /// How many units the picture has; one at the right or bottom edge counts as one.
    ///
    /// # Errors
    ///
    /// Numbers 34, 35, 7 and 8.
    pub fn unit_count(&self) -> Result<u64, Refusal> {
        coding::unit_count(self)
    }
}

impl From<[u32; 4]> for Settings {
    fn from(values: [u32; 4]) -> Self {
        let [ctu, min_cb, width, height] = values;
        Self { ctu, min_cb, width, height }
    }
}
