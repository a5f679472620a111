//! A picture line's settings, and the picture that is opened with them, in either coding.

use colwythar::{h265, write_flags, Coding, Refusal, Session, Settings};

/// The settings of a picture line: `picture` in H.266, `h265` in H.265.
#[derive(Clone, Copy, Debug, PartialEq, Eq)]
pub enum Picture {
    /// Eight numbers.
    H266(Settings),
    /// Four numbers.
    H265(h265::Settings),
}

impl Picture {
    /// The word that begins the line.
    pub fn word(&self) -> &'static str {
        match self {
            Self::H266(_) => "picture",
            Self::H265(_) => "h265",
        }
    }

    /// The numbers after it.
    pub fn numbers(&self) -> Vec<u32> {
        match self {
            Self::H266(settings) => settings.to_array().to_vec(),
            Self::H265(settings) => settings.to_array().to_vec(),
        }
    }

    /// CTU side, and the side of the pipeline units.
    pub fn sides(&self) -> (u32, u32) {
        match self {
            Self::H266(settings) => (settings.ctu, settings.pipeline_side()),
            Self::H265(settings) => (settings.ctu, settings.pipeline_side()),
        }
    }

    /// Width and height.
    pub fn size(&self) -> (u32, u32) {
        match self {
            Self::H266(Settings { width, height, .. }) => (*width, *height),
            Self::H265(h265::Settings { width, height, .. }) => (*width, *height),
        }
    }

    /// Opens the picture's session.
    ///
    /// # Errors
    ///
    /// The engine's refusal of the settings.
    pub fn open(&self) -> Result<Box<dyn Units>, Refusal> {
        Ok(match *self {
            Self::H266(settings) => Box::new(Session::open(settings)?),
            Self::H265(settings) => Box::new(Session::open(settings)?),
        })
    }
}

/// The units of a picture that is open.
pub trait Units {
    /// Reads the flags of the unit that is due.
    ///
    /// # Errors
    ///
    /// The engine's refusal.
    fn read(&mut self, address: u64, flags: &[u8], rows: &mut [u8]) -> Result<usize, Refusal>;

    /// Turns the rows of any unit back into its flags.
    ///
    /// # Errors
    ///
    /// The engine's refusal.
    fn turn_back(&self, address: u64, rows: &[u8], flags: &mut [u8]) -> Result<usize, Refusal>;

    /// The address that is due, and how many units there are.
    fn progress(&self) -> (u64, u64);
}

impl<S: Coding> Units for Session<S> {
    fn read(&mut self, address: u64, flags: &[u8], rows: &mut [u8]) -> Result<usize, Refusal> {
        self.unit(address, flags, rows)
    }

    fn turn_back(&self, address: u64, rows: &[u8], flags: &mut [u8]) -> Result<usize, Refusal> {
        write_flags(self.settings(), address, rows, flags)
    }

    fn progress(&self) -> (u64, u64) {
        (self.due(), self.unit_count())
    }
}
