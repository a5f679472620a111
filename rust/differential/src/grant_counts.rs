//! Which grants the tests met.

use std::fmt;

/// Where the rows of grants were from, and which of them the laws and the limits of counting decided.
#[derive(Clone, Copy, Debug, Default)]
pub struct GrantCounts {
    /// Those that drew on the common part.
    pub drew: u64,
    /// Those with more rows than the common part had left, so that they needed their share.
    pub needed_share: u64,
    /// Of these, those on lists of which R-12's law of shares speaks.
    pub kept: u64,
    /// Those refused with 36 only because an account counts no further than 32 bits.
    pub uncounted: u64,
}

impl GrantCounts {
    /// The least of these numbers.
    pub fn least(&self) -> u64 {
        self.drew.min(self.needed_share).min(self.kept).min(self.uncounted)
    }
}

impl fmt::Display for GrantCounts {
    fn fmt(&self, f: &mut fmt::Formatter<'_>) -> fmt::Result {
        let Self { drew, needed_share, kept, uncounted } = self;
        write!(
            f,
            "{drew} from the common part, {needed_share} that needed their share, {kept} by law; "
        )?;
        write!(f, "{uncounted} refused that could not be counted")
    }
}
