//! R-11's laws, over the answers for tables of one unit.

use std::collections::BTreeSet;

use samples::Rng;

use crate::compare::mirrored;
use crate::{Coding, Engine};

/// What comparing tables of a unit answers: in line i, column j, for table i and table j.
pub struct Answers(Vec<Vec<u64>>);

impl Answers {
    /// Compares every two of these tables in both orders, and each with itself.
    ///
    /// # Panics
    ///
    /// Where one is refused, or the answers break a law.
    pub fn of<S: Coding>(
        engine: &mut Engine<S>,
        rng: &mut Rng,
        settings: &S,
        address: u64,
        tables: &[&[u8]],
    ) -> Self {
        let count = tables.len();
        let mut answers = vec![vec![0; count]; count];
        for i in 0..count {
            for j in i..count {
                let (number, finer) = engine.compare(rng, settings, address, tables[i], tables[j]);
                assert_eq!(number, 0, "{settings:?}, unit {address}: {:?}", [tables[i], tables[j]]);
                // The other order was asserted to answer the mirror image.
                (answers[j][i], answers[i][j]) = (mirrored(finer), finer);
            }
        }
        let answers = Self(answers);
        answers.assert_laws(tables);
        answers
    }

    /// The answer for the first table and the last one, where there are any.
    pub fn first_and_last(&self) -> Option<u64> {
        self.0.first()?.last().copied()
    }

    /// How many lists of three tables have each finer than the next.
    pub fn chains(&self) -> usize {
        let finer = |i: usize, j: usize| self.0[i][j] == 1;
        self.threes().filter(|&[i, j, k]| finer(i, j) && finer(j, k)).count()
    }

    /// Is one table finer than another, or equal?
    fn finer_or_equal(&self, i: usize, j: usize) -> bool {
        self.0[i][j] <= 1
    }

    /// Every three tables, in every order and with repetitions.
    fn threes(&self) -> impl Iterator<Item = [usize; 3]> {
        let count = self.0.len();
        (0..count)
            .flat_map(move |i| (0..count).flat_map(move |j| (0..count).map(move |k| [i, j, k])))
    }

    /// Finer or equal is transitive. Equal is answered exactly where the rectangles are the same, and so
    /// for a table and itself; with the mirror image, two tables that are each finer or equal have them.
    fn assert_laws(&self, tables: &[&[u8]]) {
        for [i, j, k] in self.threes() {
            if self.finer_or_equal(i, j) && self.finer_or_equal(j, k) {
                let three = [tables[i], tables[j], tables[k]];
                assert!(self.finer_or_equal(i, k), "not transitive: {three:?}");
            }
        }
        let blocks: Vec<_> = tables.iter().map(|table| rectangles(table)).collect();
        for (i, line) in self.0.iter().enumerate() {
            for (j, &answer) in line.iter().enumerate() {
                let two = [tables[i], tables[j]];
                assert_eq!(answer == 0, blocks[i] == blocks[j], "the same rectangles: {two:?}");
            }
        }
    }
}

/// The rectangles of a table: the bytes of each row before its depths.
fn rectangles(table: &[u8]) -> BTreeSet<&[u8]> {
    table.chunks_exact(8).map(|row| &row[..6]).collect()
}
