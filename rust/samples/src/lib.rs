//! Inputs for the tests and the benchmark.
//!
//! Settings, legal trees of several styles, and damage to flags and tables come from a small
//! generator with a fixed seed, so that every run sees the same inputs; `broken` lists every table
//! that one small change makes of another, `small` settings with few trees, `brute` all trees of a
//! small unit, `near` tables near theirs, `relatives` trees that changes make of others, and `banks` the
//! accounts of cameras. The examples are those of document 01, the units with the most flags, one with the
//! deepest rows, and the broken table that is the hardest to refuse. Trees are walked with the allowed
//! splits of the crate `h266`, and `quads` has settings and trees of H.265, with the crate `h265`; the
//! engine is not needed here.
//!
//! ```
//! use samples::{trees, Rng, Style};
//!
//! let settings = [64, 4, 8, 3, 32, 32, 64, 64];
//! let flags = trees::flags(&settings, 0, &mut Rng::new(1), Style::Mixed);
//! let mut rows = [0; 8192];
//! assert_eq!(h266::read_unit(&settings, 0, &flags, &mut rows).0, 0);
//! ```
#![forbid(unsafe_code)]
#![warn(missing_docs)]

pub mod banks;
pub mod broken;
pub mod brute;
pub mod damage;
pub mod deepest;
pub mod hardest;
pub mod longest;
pub mod near;
pub mod paper;
pub mod quads;
pub mod relatives;
mod rng;
pub mod settings;
pub mod small;
mod tree;
pub mod trees;

pub use rng::Rng;
pub use tree::Tree;
pub use trees::Style;
