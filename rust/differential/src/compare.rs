//! One comparison of two tables on all sides.

use colwythar::MAX_FLAGS;
use h266::Answer;
use samples::Rng;

use crate::lent::Lent;
use crate::{Coding, Engine};

impl<S: Coding> Engine<S> {
    /// Two tables of a unit, compared in this order and in the other: where the one is accepted, the
    /// other answers the mirror image, and where it is refused, the other is.
    ///
    /// # Panics
    ///
    /// Where the coding has no comparison, too.
    pub fn compare(
        &mut self,
        rng: &mut Rng,
        s: &S,
        at: u64,
        first: &[u8],
        second: &[u8],
    ) -> Answer {
        let answer = self.compare_in_order(rng, s, at, first, second);
        let exchanged = self.compare_in_order(rng, s, at, second, first);
        let input = || format!("compare {s:?}, unit {at}, {first:?}, {second:?}");
        match answer {
            (0, finer) => {
                assert_eq!(exchanged, (0, mirrored(finer)), "not the mirror image: {}", input());
            }
            _ => assert_ne!(exchanged.0, 0, "refused in one order only: {}", input()),
        }
        answer
    }

    /// Two tables of a unit, compared in this order. They are lent between guard bytes, and nothing
    /// may change. A refusal is that of the engine's own way back, of the first table before the second.
    fn compare_in_order(
        &mut self,
        rng: &mut Rng,
        s: &S,
        at: u64,
        first: &[u8],
        second: &[u8],
    ) -> Answer {
        let input = || format!("compare {s:?}, unit {at}, {first:?}, {second:?}");
        let before = [first, second].map(|table| Lent::of(rng, table));
        let mut answers = S::COMPARISONS.iter().map(|compare| {
            let [mut first, mut second] = before.clone();
            let answer = compare(s, at, first.part(), second.part());
            assert!([first, second] == before, "a table changed: {}", input());
            answer
        });
        let answer = answers.next().expect("the engine");
        answers.for_each(|other| assert_eq!(other, answer, "answers differ for {}", input()));
        let refusal = refusal(s, at, first).or_else(|| refusal(s, at, second));
        assert_eq!((answer.0 != 0).then_some(answer), refusal, "{}", input());
        self.tally.count_comparison(answer);
        answer
    }
}

/// The answer for the same tables in the other order.
pub(crate) fn mirrored(finer: u64) -> u64 {
    [0, 2, 1, 3][finer as usize]
}

/// The engine's refusal of a table, by its way back into a buffer that is never too short.
fn refusal<S: Coding>(s: &S, at: u64, rows: &[u8]) -> Option<Answer> {
    let engine = S::SIDES.first().expect("the engine");
    let answer = (engine.write)(s, at, rows, &mut [0; MAX_FLAGS]);
    (answer.0 != 0).then_some(answer)
}
