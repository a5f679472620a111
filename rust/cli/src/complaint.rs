//! What is wrong with a file, and where.

use std::fmt;

use colwythar::Refusal;

use crate::text::Reason;

/// Something in a file that was not accepted, as a sentence without a full stop.
///
/// ```
/// use cli::Complaint;
/// use colwythar::Refusal;
///
/// let refusal = Refusal { number: 27, place: 3 };
/// let complaint =
///     Complaint::Unit { lines: (2, 5), row_line: None, address: 0, units: 1, refusal };
/// assert_eq!(
///     complaint.to_string(),
///     "lines 2 to 5: unit 0: refusal 27: the table ends too early, more rows than 3 are needed \
///      (the last is line 5)",
/// );
/// ```
#[derive(Clone, Copy, Debug, PartialEq, Eq)]
pub enum Complaint {
    /// The file has no picture line, nor another one.
    Nothing,
    /// A line that says nothing that is understood.
    Malformed {
        /// Its number, counted from 1.
        line: u64,
        /// Where in the line or table.
        place: Place,
        /// Why it is not taken.
        reason: Reason,
    },
    /// Settings that the engine refused.
    Picture {
        /// The number of the picture line.
        line: u64,
        /// What the engine answered.
        refusal: Refusal,
    },
    /// A unit that the engine refused.
    Unit {
        /// The first and the last of its lines.
        lines: (u64, u64),
        /// The line of the row that the refusal's place names.
        row_line: Option<u64>,
        /// Its address.
        address: u64,
        /// How many units the picture has.
        units: u64,
        /// What the engine answered.
        refusal: Refusal,
    },
}

/// Which part of a line or of a table is malformed.
#[derive(Clone, Copy, Debug, PartialEq, Eq)]
pub enum Place {
    /// The line.
    Line,
    /// A flag, counted from 0.
    Flag(usize),
    /// A row of a unit's table, counted from 0.
    Row {
        /// How many rows stand before it.
        row: usize,
        /// The unit's address.
        unit: u64,
    },
}

impl fmt::Display for Complaint {
    fn fmt(&self, f: &mut fmt::Formatter<'_>) -> fmt::Result {
        match *self {
            Self::Nothing => f.write_str("nothing to read: a picture line is expected"),
            Self::Malformed { line, place, reason } => write!(f, "line {line}: {place}{reason}"),
            Self::Picture { line, refusal } => write!(f, "line {line}: {refusal}"),
            Self::Unit { lines, row_line, address, units, refusal } => {
                match lines {
                    (first, last) if first == last => write!(f, "line {first}")?,
                    (first, last) => write!(f, "lines {first} to {last}")?,
                }
                write!(f, ": unit {address}: {refusal}")?;
                match (refusal.number, units, row_line) {
                    (10, 1, _) => f.write_str(" (it has 1 unit)"),
                    (10, units, _) => write!(f, " (it has {units} units)"),
                    (27, ..) => write!(f, " (the last is line {})", lines.1),
                    (_, _, Some(line)) => write!(f, " (it is line {line})"),
                    _ => Ok(()),
                }
            }
        }
    }
}

impl fmt::Display for Place {
    fn fmt(&self, f: &mut fmt::Formatter<'_>) -> fmt::Result {
        match self {
            Self::Line => Ok(()),
            Self::Flag(flag) => write!(f, "flag {flag}, counted from 0: "),
            Self::Row { row, unit } => write!(f, "row {row} of unit {unit}, counted from 0: "),
        }
    }
}
