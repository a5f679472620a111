//! A call with a lent buffer, made on all sides.

use h266::Answer;
use samples::Rng;

use crate::lent::Lent;
use crate::{Coding, Entry, Tally};

/// What the engine answered, and the lent buffer afterwards, as far as it was written.
#[derive(Clone, Debug, PartialEq, Eq)]
pub struct Outcome {
    /// 0, or the number of the refusal.
    pub number: u64,
    /// The count, or the place of the refusal.
    pub value: u64,
    /// The bytes written.
    pub written: Vec<u8>,
}

/// A call with a lent buffer, made on all sides.
pub(crate) struct Call {
    pub(crate) entry: Entry,
    /// Bytes of one answered item.
    pub(crate) size: usize,
    pub(crate) room: usize,
}

impl Call {
    /// Makes the call on all sides, of which the engine is the first.
    pub(crate) fn make<S: Coding, T>(
        &self,
        tally: &mut Tally<S>,
        rng: &mut Rng,
        sides: &[T],
        mut call: impl FnMut(&T, &mut [u8]) -> Answer,
        input: impl Fn() -> String,
    ) -> Outcome {
        let before = Lent::new(rng, self.room);
        let (engine, others) = sides.split_first().expect("the engine");
        let mut first = before.clone();
        let (number, value) = call(engine, first.part());
        for other in others {
            let mut lent = before.clone();
            let answer = call(other, lent.part());
            assert_eq!(answer, (number, value), "answers differ for {}", input());
            assert!(first == lent, "buffers differ for {}", input());
        }
        let written = if number == 0 { self.size * value as usize } else { 0 };
        first.assert_rest(&before, written);
        tally.count(self.entry, number);
        let written = first.part()[..written].to_vec();
        Outcome { number, value, written }
    }
}
