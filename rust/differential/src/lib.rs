//! Compares the engine with unproved decoders, call by call: for H.266 `h266`, written from the text of
//! the standard, and `tuned`; for H.265 `h265`, written from its text. A [`Coding`] is what differs
//! between the two, and the comparisons are written once.
//!
//! Each comparison makes the same call on all sides, with equal buffers of random bytes
//! between guard bytes, and asserts that the answers, the buffers, the guards and the session's
//! address due are equal afterwards, that the rows written stay in pipeline units and come one such
//! unit after the other, and that there are no more flags than is planned. The calls come from
//! random legal trees, damaged flags and tables, every width and height at the edges, broken
//! settings, lent buffers of every kind of length, whole sessions, small units in full, and the
//! units with the most flags. Tables are also cut, go on after their end, and have rows changed,
//! exchanged, left out and doubled. All tables of H.266 are also printed as pages, and most are compared
//! with another table of the unit, in both orders; three tables of a unit, and all of small ones, are
//! held to the laws of finer. Lists of calls on banks of cameras are held to R-12's laws, and after each the
//! accounts are equal, too. `tuned` has no pages, comparisons or grants.
//!
//! `h266` and `h265` share nothing with the engine, nor with each other. `tuned` takes from `h266` the
//! check of the settings, the rules of open splits and where a refused table stops being a tree, and so
//! does the generator of trees the rules; trees are also drawn from random flags, which know no rules.
//!
//! ```
//! use differential::{calls, Engine};
//! use samples::Rng;
//!
//! let (mut engine, mut rng) = (Engine::<h265::Settings>::default(), Rng::new(1));
//! calls::round(&mut engine, &mut rng);
//! assert!(engine.tally.calls() > 0);
//! ```
#![forbid(unsafe_code)]
#![warn(missing_docs)]

mod accounts;
pub mod banks;
mod call;
pub mod calls;
mod coding;
mod compare;
pub mod comparisons;
mod engine;
mod grant_counts;
mod grants;
mod laws;
mod ledger;
mod lent;
pub mod pages;
pub mod sessions;
pub mod small;
mod stops;
mod tally;

pub use call::Outcome;
pub use coding::{BankSide, Coding, OnBank, OnTables, OnUnit, Opening, Side};
pub use engine::{Engine, UnitCall};
pub use grant_counts::GrantCounts;
pub use laws::Answers;
pub use tally::{Entry, Tally};
