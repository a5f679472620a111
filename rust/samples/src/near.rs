//! Tables near those of a small unit's trees, and what document 02, R-5, says of each.

use crate::brute::{Answer, Beginnings, Trees};
use crate::{broken, Rng};

/// A way back of one unit beside the list of all its trees. Every method panics where they differ.
pub struct Near<'a, W> {
    write: W,
    trees: &'a Trees,
    beginnings: Beginnings<'a>,
    /// How often each number was answered.
    pub answers: [usize; 29],
}

impl<'a, W: FnMut(&[u8]) -> Answer> Near<'a, W> {
    /// A unit with these trees, whose way back `write` answers for rows.
    pub fn new(trees: &'a Trees, write: W) -> Self {
        Self { write, trees, beginnings: Beginnings::of(trees), answers: [0; 29] }
    }

    /// A table of whole rows, accepted exactly where it is one of the unit's.
    pub fn check(&mut self, rows: &[u8]) {
        let expected = match self.trees.get(rows) {
            Some(flags) => (0, flags.len() as u64),
            None => self.beginnings.refusal(rows),
        };
        let answer = (self.write)(rows);
        assert_eq!(answer, expected, "{rows:?}");
        self.answers[answer.0 as usize] += 1;
    }

    /// Everything that a small change makes of a table, and of some of these a second one.
    pub fn check_around(&mut self, rng: &mut Rng, rows: &[u8]) {
        let first = [broken::cut(rows), broken::longer(rows), broken::moved(rows)].concat();
        let changed = (0..rows.len() / 8).flat_map(|row| broken::changed(rows, row));
        for table in first.into_iter().chain(changed) {
            self.check(&table);
            if !table.is_empty() && rng.percent(2) {
                self.check_row(rng, &table);
            }
        }
    }

    /// The table gone on, and with one row changed, in all ways.
    pub fn check_row(&mut self, rng: &mut Rng, rows: &[u8]) {
        let row = rng.below(rows.len() / 8);
        let again = [broken::longer(rows), broken::changed(rows, row)].concat();
        again.iter().for_each(|table| self.check(table));
    }

    /// The first rows of a table, and after them the last of another or junk.
    pub fn check_mixed(&mut self, rng: &mut Rng, rows: &[u8], other: &[u8]) {
        for end in (0..=rows.len()).step_by(8) {
            let rest = other.get(end..).unwrap_or_default();
            self.check(&[&rows[..end], rest].concat());
            let junk = 8 * (1 + rng.below(3));
            self.check(&[&rows[..end], &rng.bytes(junk)].concat());
        }
    }

    /// Adds how often each number was answered.
    pub fn add_to(&self, answers: &mut [usize; 29]) {
        answers.iter_mut().zip(self.answers).for_each(|(sum, times)| *sum += times);
    }
}
