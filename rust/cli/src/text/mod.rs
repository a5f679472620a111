//! The text of a file: its lines, what a line says, and why a line is not taken.

mod line;
mod lines;
mod reason;
mod words;

pub use line::{scan, Line, Malformed};
pub use lines::{Lines, Text, LONGEST};
pub use reason::{Reason, Subject};
