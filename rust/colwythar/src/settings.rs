//! The eight settings of a picture in H.266.

use crate::{coding, Refusal, MAX_FLAGS};

/// The settings, in luma samples except `max_mtt`. Nothing is checked before a call.
///
/// ```
/// use colwythar::Settings;
///
/// let settings = Settings::from([128, 4, 8, 3, 64, 64, 1920, 1080]);
/// assert_eq!(settings.ctu, 128);
/// assert_eq!(settings.to_array()[7], settings.height);
/// assert_eq!(settings.unit_count(), Ok(135));
/// ```
#[derive(Clone, Copy, Debug, PartialEq, Eq, Hash)]
pub struct Settings {
    /// CTU side: 32, 64 or 128.
    pub ctu: u32,
    /// Smallest side of a coding block.
    pub min_cb: u32,
    /// Smallest side of a quad tree leaf.
    pub min_qt: u32,
    /// Greatest depth of binary and ternary splits.
    pub max_mtt: u32,
    /// Largest side that may be split into two.
    pub max_bt: u32,
    /// Largest side that may be split into three.
    pub max_tt: u32,
    /// Picture width.
    pub width: u32,
    /// Picture height.
    pub height: u32,
}

impl Settings {
    /// The settings in the order of the C interface.
    #[inline]
    pub fn to_array(&self) -> [u32; 8] {
        let Self { ctu, min_cb, min_qt, max_mtt, max_bt, max_tt, width, height } = *self;
        [ctu, min_cb, min_qt, max_mtt, max_bt, max_tt, width, height]
    }

    /// The side of the picture's pipeline units: the smaller of 64 and the CTU side.
    ///
    /// They are squares, laid side by side from (0, 0). Each row lies inside one of them or consists
    /// of whole ones; with CTU side 32, no row leaves its own. They come one after the other: when a
    /// row of another one appears, or the table ends, all samples of the former that lie in the
    /// picture are there ([`Row::pipeline_unit`](crate::Row::pipeline_unit)). Nothing is checked here.
    ///
    /// ```
    /// use colwythar::Settings;
    ///
    /// let small = Settings::from([32, 4, 8, 3, 32, 32, 1920, 1080]);
    /// assert_eq!(small.pipeline_side(), 32);
    /// assert_eq!(Settings { ctu: 128, ..small }.pipeline_side(), 64);
    /// ```
    #[inline]
    pub fn pipeline_side(&self) -> u32 {
        self.ctu.min(64)
    }

    /// The most flags of a unit: 110, 446 or 1,786, by the CTU side 32, 64 or 128.
    ///
    /// A flag buffer of this length is never too short, and a unit of each CTU side fills it.
    /// Nothing is checked here.
    ///
    /// ```
    /// use colwythar::{Settings, MAX_FLAGS};
    ///
    /// let small = Settings::from([32, 4, 8, 3, 32, 32, 1920, 1080]);
    /// assert_eq!(small.max_flags(), 110);
    /// assert_eq!(Settings { ctu: 128, ..small }.max_flags(), MAX_FLAGS);
    /// ```
    #[inline]
    pub fn max_flags(&self) -> usize {
        match self.ctu {
            32 => 110,
            64 => 446,
            _ => MAX_FLAGS,
        }
    }

    /// How many units the picture has; one at the right or bottom edge counts as one.
    ///
    /// # Errors
    ///
    /// Numbers 1 to 9.
    pub fn unit_count(&self) -> Result<u64, Refusal> {
        coding::unit_count(self)
    }
}

impl From<[u32; 8]> for Settings {
    fn from(values: [u32; 8]) -> Self {
        let [ctu, min_cb, min_qt, max_mtt, max_bt, max_tt, width, height] = values;
        Self { ctu, min_cb, min_qt, max_mtt, max_bt, max_tt, width, height }
    }
}
