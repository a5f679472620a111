//! A third decoder of the H.266 coding tree: unproved safe Rust, tuned by hand for speed.
//!
//! It makes the same promises as the crate [`h266`] and takes the checked settings, the nodes over
//! an edge and the allowed splits from there. Inside the picture it has its own forms: a node is
//! the number that its row's bytes are, the splits of a size are found once in a call and kept as
//! bits, and coding units are met without a call. So the benchmark also shows how far unproved code
//! can be driven. Nothing rests on it; the tests compare it with `h266` and with the engine.
//!
//! ```
//! let settings = [64, 4, 8, 3, 32, 32, 64, 64];
//! let mut rows = [0u8; 32];
//! assert_eq!(tuned::read_unit(&settings, 0, &[1, 0, 0, 0, 0], &mut rows), (0, 4));
//!
//! let mut flags = [0u8; 5];
//! assert_eq!(tuned::write_flags(&settings, 0, &rows, &mut flags), (0, 5));
//! assert_eq!(flags, [1, 0, 0, 0, 0]);
//! ```
#![forbid(unsafe_code)]
#![warn(missing_docs)]

mod block;
mod join;
mod open;
mod read;
mod write;

pub use read::{read_unit, unit};
pub use write::write_flags;
