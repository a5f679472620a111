//! Refusals, and the pair that callers get.

/// `(0, count)` where accepted, else `(number, place)` of the refusal.
pub type Answer = (u64, u64);

/// Why a call is not accepted.
#[derive(Clone, Copy, Debug, PartialEq, Eq)]
pub struct Refusal {
    /// 7, 8, 10 to 17, 20 to 22, 27, 28, 34 or 35.
    pub number: u64,
    /// Where or how much, according to the number.
    pub place: u64,
}

impl Refusal {
    /// A refusal at a place.
    #[inline]
    pub fn at(number: u64, place: usize) -> Self {
        Self { number, place: place as u64 }
    }

    /// A refusal whose number has no place.
    #[inline]
    pub fn plain(number: u64) -> Self {
        Self { number, place: 0 }
    }
}

/// The answer for a result.
#[inline]
pub(crate) fn answer(result: Result<usize, Refusal>) -> Answer {
    result.map_or_else(|refusal| (refusal.number, refusal.place), |count| (0, count as u64))
}
