//! The program `colwythar`: it reads text files of a picture's coding tree units, each given by its
//! split flags or by its rows, and prints the rows, the flags or the pages, draws the coding blocks, or
//! says which of two files has the finer tables.
//!
//! A subcommand is one file in `commands`, which implements [`Command`]; `COMMANDS` lists them.
//! Everything else is shared: `text` says what the lines are, `picture` has the two codings, `reading`
//! gives the units to the engine, and `run` sees to files, output and the exit status.
#![forbid(unsafe_code)]
#![warn(missing_docs)]

mod arguments;
mod commands;
mod complaint;
mod edges;
mod help;
mod output;
mod pairs;
mod picture;
mod printing;
mod reading;
mod run;
pub mod svg;
mod table;
pub mod text;

pub use commands::{Command, Context, Sum, Unit};
pub use complaint::{Complaint, Place};
pub use picture::{Picture, Units};
pub use reading::{read, Trouble};
pub use run::run;
