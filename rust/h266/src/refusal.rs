//! Refusals, and the pair that callers get.

/// `(0, count)` where accepted, else `(number, place)` of the refusal.
pub type Answer = (u64, u64);

/// Why a call is not accepted.
#[derive(Clone, Copy, Debug, PartialEq, Eq)]
pub struct Refusal {
    /// 1 to 17, 20 to 23, 27, 28 or 36 to 38.
    pub number: u64,
    /// Where or how much, according to the number.
    pub place: u64,
}

impl Refusal {
    /// A refusal with a place within a buffer.
    #[inline]
    pub fn new(number: u64, place: usize) -> Self {
        let place = place as u64;
        Self { number, place }
    }

    /// The answer for a result.
    #[inline]
    pub fn answer(result: Result<usize, Self>) -> Answer {
        match result {
            Ok(count) => (0, count as u64),
            Err(refusal) => (refusal.number, refusal.place),
        }
    }
}
