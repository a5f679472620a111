//! A second decoder of the H.266 coding tree, written from the standard's text.
//!
//! It follows clauses 6.4.1 to 6.4.3 and the coding tree syntax of clause 7.3.11.4 for one luma
//! single tree, in the standard's own variable names, and shares nothing with the Colwythar engine.
//! Each node is a [`Node`], its splits are [`Allowed::of`] it, and one recursion in each direction
//! walks the tree, so that it can be held beside the clauses. It is the other side of the
//! differential tests and, as safe Rust without special tricks, the yardstick of the benchmark.
//! [`Board`], which takes tables as the customer's board does, [`page()`], the partition page,
//! [`stop()`], which says where a table stops being a tree, [`compare()`], which says whether one of two
//! tables is finer, and [`Bank`], which grants rows to cameras, are written from the paragraphs of
//! document 02 that ask for them.
//!
//! The calls make the same promises as the engine's C interface. An answer is a pair: 0 and a
//! count where the call is accepted, else the number of the refusal and its place. A refused call
//! leaves every buffer, session and account as it was, and bytes past the answer are never touched.
//!
//! ```
//! // CTU side, MinCb, MinQt, greatest multi-type depth, MaxBt, MaxTt, width, height
//! let settings = [64, 4, 8, 3, 32, 32, 64, 64];
//! let mut rows = [0u8; 32];
//! assert_eq!(h266::read_unit(&settings, 0, &[1, 0, 0, 0, 0], &mut rows), (0, 4));
//! assert_eq!(rows[8..16], [0x20, 0, 0, 0, 5, 5, 1, 0]);
//!
//! let mut flags = [0u8; 5];
//! assert_eq!(h266::write_flags(&settings, 0, &rows, &mut flags), (0, 5));
//! assert_eq!(flags, [1, 0, 0, 0, 0]);
//! ```
#![forbid(unsafe_code)]
#![warn(missing_docs)]

mod allowed;
mod bank;
mod board;
pub mod check;
mod compare;
mod join;
mod node;
mod page;
mod params;
mod pipeline;
mod read;
mod refusal;
mod row;
mod session;
mod split;
mod stop;
mod worth;
mod write;

pub use allowed::Allowed;
pub use bank::{Account, Bank};
pub use board::{Board, BoardFault, PipelineUnit};
pub use compare::compare;
pub use node::Node;
pub use page::page;
pub use params::Params;
pub use pipeline::pipeline_side;
pub use read::read_unit;
pub use refusal::{Answer, Refusal};
pub use row::{rows, Row};
pub use session::{open, unit, unit_count};
pub use split::Split;
pub use stop::stop;
pub use worth::greatest_worth;
pub use write::write_flags;

/// The eight settings: CTU side, MinCb, MinQt, greatest multi-type depth, MaxBt, MaxTt, picture
/// width and picture height.
pub type Settings = [u32; 8];

/// The most rows of one unit: 128 by 128 samples in blocks of 4 by 4.
pub const MAX_ROWS: usize = 1024;
