//! Comparing two partitions of a unit.

use std::fmt;

use crate::{raw, Refusal, Settings};

/// Which of two tables of a unit is finer. A table is finer where every block of the other is a union
/// of its blocks, and the blocks are not equal; depths and the order of rows play no part.
///
/// Proved of all tables that [`compare`] accepts with the same settings and address, so that a caller
/// may leave comparisons out; A is finer or equal to B where [`Finer::first_is_finer_or_equal`] holds of
/// the answer for A and B:
/// - any two of these tables are accepted together;
/// - for a table and itself the answer is [`Finer::Equal`];
/// - if A is finer or equal to B, and B to C, then A is to C;
/// - if A is finer or equal to B, and B to A, they have the same rectangles, and the answer is
///   [`Finer::Equal`];
/// - for B and A the answer is that for A and B, [`mirrored`](Finer::mirrored).
///
/// ```
/// use colwythar::Finer;
///
/// assert_eq!(Finer::First.to_string(), "first finer");
/// assert_eq!(Finer::First.mirrored(), Finer::Second);
/// assert!(Finer::Equal.first_is_finer_or_equal());
/// ```
#[derive(Clone, Copy, Debug, PartialEq, Eq, Hash)]
pub enum Finer {
    /// Equal blocks: neither is finer.
    Equal,
    /// The first table.
    First,
    /// The second table.
    Second,
    /// Neither, and the blocks are not equal.
    Neither,
}

impl Finer {
    /// What an accepted call answers.
    fn from_answer(answer: usize) -> Self {
        match answer {
            0 => Self::Equal,
            1 => Self::First,
            2 => Self::Second,
            // The engine answers no number above 3.
            _ => Self::Neither,
        }
    }

    /// Is the first table finer than the second, or equal?
    pub fn first_is_finer_or_equal(self) -> bool {
        matches!(self, Self::Equal | Self::First)
    }

    /// The same of the two tables in the other order.
    pub fn mirrored(self) -> Self {
        match self {
            Self::First => Self::Second,
            Self::Second => Self::First,
            Self::Equal | Self::Neither => self,
        }
    }
}

impl fmt::Display for Finer {
    fn fmt(&self, f: &mut fmt::Formatter<'_>) -> fmt::Result {
        f.write_str(match self {
            Self::Equal => "equal blocks",
            Self::First => "first finer",
            Self::Second => "second finer",
            Self::Neither => "neither finer",
        })
    }
}

/// Says which of two tables of a unit is finer, if one is.
///
/// A refusal does not say which table it is about. The first is tested first, so 15, 27, 28 and 16 are
/// about the first exactly where it is also refused beside itself. Which answers follow from others,
/// without a call, is said at [`Finer`].
///
/// ```
/// use colwythar::{compare, Finer, Settings};
///
/// let settings = Settings {
///     ctu: 32, min_cb: 4, min_qt: 8, max_mtt: 3, max_bt: 32, max_tt: 32, width: 32, height: 32,
/// };
/// let quarters = |qt_depth, mtt_depth| {
///     [(0, 0), (16, 0), (0, 16), (16, 16)].map(|(x, y)| [x, 0, y, 0, 4, 4, qt_depth, mtt_depth])
/// };
/// // A quad split, and two halves, one above the other, that are halved side by side.
/// let (quad, binary) = (quarters(1, 0).concat(), quarters(0, 2).concat());
/// assert_eq!(compare(&settings, 0, &quad, &binary), Ok(Finer::Equal));
///
/// let whole = [0, 0, 0, 0, 5, 5, 0, 0];
/// assert_eq!(compare(&settings, 0, &whole, &quad), Ok(Finer::Second));
///
/// let refusal = compare(&settings, 0, &whole, &quad[..24]).unwrap_err();
/// assert_eq!((refusal.number, refusal.place), (27, 3));
/// ```
///
/// # Errors
///
/// Numbers 1 to 10, 15, 27, 28 and 16, of the first table before the second.
pub fn compare(
    settings: &Settings,
    address: u64,
    first: &[u8],
    second: &[u8],
) -> Result<Finer, Refusal> {
    let answer = raw::compare(&settings.to_array(), address, first, second);
    Refusal::check(answer).map(Finer::from_answer)
}
