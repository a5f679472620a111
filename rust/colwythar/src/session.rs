//! The picture session.

use crate::{coding, Coding, Refusal, Settings};

/// A picture being read: its settings and the address that is due.
///
/// The settings are those of H.266, or of H.265 ([`h265::Session`](crate::h265::Session)).
///
/// ```
/// use colwythar::{Session, Settings};
///
/// let settings = Settings {
///     ctu: 64, min_cb: 4, min_qt: 8, max_mtt: 3, max_bt: 32, max_tt: 32, width: 64, height: 64,
/// };
/// let mut session = Session::open(settings)?;
/// let mut rows = [0; 8];
/// assert_eq!(session.unit(1, &[0], &mut rows).unwrap_err().number, 21);
/// assert_eq!(session.due(), 0);
/// assert_eq!(session.unit(0, &[0], &mut rows), Ok(1));
/// assert!(session.is_complete());
/// # Ok::<(), colwythar::Refusal>(())
/// ```
#[derive(Clone, Debug, PartialEq, Eq)]
pub struct Session<S = Settings> {
    settings: S,
    due: u64,
    count: u64,
}

impl<S: Coding> Session<S> {
    /// Opens a session; unit 0 is then due.
    ///
    /// # Errors
    ///
    /// Numbers 1 to 9; for H.265 34, 35, 7 and 8.
    pub fn open(settings: S) -> Result<Self, Refusal> {
        let count = coding::unit_count(&settings)?;
        let mut due = 0;
        Refusal::check(settings.raw_open(&mut due))?;
        Ok(Self { settings, due, count })
    }

    /// Reads the unit that is due, writes its rows and answers how many. The next address is then
    /// due; a refused call changes nothing.
    ///
    /// # Errors
    ///
    /// Numbers 20 and 21, and 11 to 14.
    #[inline]
    pub fn unit(&mut self, address: u64, flags: &[u8], rows: &mut [u8]) -> Result<usize, Refusal> {
        Refusal::check(self.settings.raw_unit(&mut self.due, address, flags, rows))
    }

    /// The settings, and the address due to be moved on by a call of the engine.
    #[inline]
    pub(crate) fn parts(&mut self) -> (&S, &mut u64) {
        (&self.settings, &mut self.due)
    }

    /// The address that is due; the unit count once the picture is complete.
    pub fn due(&self) -> u64 {
        self.due
    }

    /// The settings given at the opening.
    pub fn settings(&self) -> &S {
        &self.settings
    }

    /// How many units the picture has.
    pub fn unit_count(&self) -> u64 {
        self.count
    }

    /// Have all units been read?
    pub fn is_complete(&self) -> bool {
        self.due == self.count
    }
}
