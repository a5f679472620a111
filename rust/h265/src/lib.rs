//! A second decoder of the H.265 coding quad tree, written from the standard's text.
//!
//! The reading follows coding_quadtree( ) of clause 7.3.8.4 and the inference of split_cu_flag in
//! clause 7.4.9.4, in the standard's own variable names. The way back knows no tree: it goes through
//! the unit's smallest blocks in z-scan order (clause 6.5.2) and asks of each row whether it is the
//! block that may begin there, so that the two directions share no walk. Refusals and their places are
//! those of document 02, R-10 and R-5. Nothing is shared with the Colwythar engine or with the decoder
//! of H.266.
//!
//! The calls make the same promises as the engine's C interface. An answer is a pair: 0 and a
//! count where the call is accepted, else the number of the refusal and its place. A refused call
//! leaves every buffer as it was, and bytes past the answer are never touched.
//!
//! ```
//! // CTU side, smallest block side, width, height
//! let settings = [64, 8, 64, 64];
//! let mut rows = [0u8; 32];
//! assert_eq!(h265::read_unit(&settings, 0, &[1, 0, 0, 0, 0], &mut rows), (0, 4));
//! assert_eq!(rows[8..16], [0x20, 0, 0, 0, 5, 5, 1, 0]);
//!
//! let mut flags = [0u8; 5];
//! assert_eq!(h265::write_flags(&settings, 0, &rows, &mut flags), (0, 5));
//! assert_eq!(flags, [1, 0, 0, 0, 0]);
//! ```
#![forbid(unsafe_code)]
#![warn(missing_docs)]

mod node;
mod params;
mod read;
mod refusal;
mod scan;
mod session;
mod write;

pub use node::Node;
pub use params::Params;
pub use read::read_unit;
pub use refusal::{Answer, Refusal};
pub use session::{open, unit, unit_count};
pub use write::write_flags;

/// The four settings: CTU side, smallest block side, picture width and picture height.
pub type Settings = [u32; 4];

/// The most rows of one unit: 64 by 64 samples in blocks of 8 by 8.
pub const MAX_ROWS: usize = 64;

/// The most flags of one unit: one for each block of 64 by 64, 32 by 32 and 16 by 16.
pub const MAX_FLAGS: usize = 1 + 4 + 16;
