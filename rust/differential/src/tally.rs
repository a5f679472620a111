//! How many calls were made, and how they were answered.

use std::fmt;
use std::marker::PhantomData;

use h266::Answer;

use crate::grant_counts::GrantCounts;
use crate::Coding;

/// One above the greatest number of a refusal.
const NUMBERS: usize = 39;

/// The functions of the engine.
#[derive(Clone, Copy, Debug, PartialEq, Eq)]
pub enum Entry {
    /// Flags to rows.
    Read,
    /// Rows to flags.
    Write,
    /// Rows to a page.
    Page,
    /// Two tables of a unit.
    Compare,
    /// Opening a session.
    Open,
    /// Counting the units of a picture.
    Count,
    /// A unit of a session.
    Unit,
    /// A unit of a camera of a bank.
    Grant,
    /// A new period of a bank.
    NewPeriod,
}

impl Entry {
    /// All of them.
    pub const ALL: [Self; 9] = [
        Self::Read,
        Self::Write,
        Self::Page,
        Self::Compare,
        Self::Open,
        Self::Count,
        Self::Unit,
        Self::Grant,
        Self::NewPeriod,
    ];

    /// The refusals that this function of a coding can give.
    pub fn numbers<S: Coding>(self) -> Vec<usize> {
        let own: &[usize] = match self {
            Self::Read => &[10, 11, 12, 13, 14],
            Self::Write => &[10, 15, 16, 17, 27, 28],
            Self::Page => &[10, 15, 16, 23, 27, 28],
            Self::Compare => &[10, 15, 16, 27, 28],
            Self::Open | Self::Count => &[],
            Self::Unit => return vec![11, 12, 13, 14, 20, 21, 22],
            Self::Grant => return vec![11, 12, 13, 14, 20, 21, 22, 36, 37, 38],
            Self::NewPeriod => return Vec::new(),
        };
        [S::FAULTS, own].concat()
    }
}

/// Answers by function and number; number 0 counts the accepted calls.
#[derive(Clone, Debug)]
pub struct Tally<S> {
    answers: [[u64; NUMBERS]; Entry::ALL.len()],
    /// Accepted comparisons by what they answered.
    finer: [u64; 4],
    /// Which grants there were.
    pub grants: GrantCounts,
    coding: PhantomData<S>,
}

impl<S: Coding> Default for Tally<S> {
    fn default() -> Self {
        let answers = [[0; NUMBERS]; Entry::ALL.len()];
        Self { answers, finer: [0; 4], grants: GrantCounts::default(), coding: PhantomData }
    }
}

impl<S: Coding> Tally<S> {
    /// Counts one answer.
    ///
    /// # Panics
    ///
    /// Where there is no such number.
    pub fn count(&mut self, entry: Entry, number: u64) {
        self.answers[entry as usize][number as usize] += 1;
    }

    /// Counts what a comparison answered: equal blocks, the first finer, the second, or neither.
    ///
    /// # Panics
    ///
    /// Where it answered another number.
    pub fn count_comparison(&mut self, (number, value): Answer) {
        self.count(Entry::Compare, number);
        if number == 0 {
            self.finer[value as usize] += 1;
        }
    }

    /// How often comparisons answered 0, 1, 2 and 3.
    pub fn finer(&self) -> [u64; 4] {
        self.finer
    }

    /// How often this function gave this number; 0 stands for accepted.
    pub fn of(&self, entry: Entry, number: usize) -> u64 {
        self.answers[entry as usize][number]
    }

    /// All calls.
    pub fn calls(&self) -> u64 {
        self.answers.iter().flatten().sum()
    }

    /// Asserts that every answer that a function can give came at least this often.
    ///
    /// # Panics
    ///
    /// Where one did not.
    pub fn assert_each(&self, entry: Entry, least: u64) {
        if entry == Entry::Compare {
            assert!(self.finer.iter().all(|&times| times >= least), "{self}");
        }
        if entry == Entry::Grant {
            assert!(self.grants.least() >= least, "{self}");
        }
        for number in [vec![0], entry.numbers::<S>()].concat() {
            let times = self.of(entry, number);
            assert!(times >= least, "{entry:?} answered {number} only {times} times:\n{self}");
        }
    }
}

impl<S: Coding> fmt::Display for Tally<S> {
    fn fmt(&self, f: &mut fmt::Formatter<'_>) -> fmt::Result {
        for entry in Entry::ALL {
            if self.answers[entry as usize].iter().all(|&times| times == 0) {
                continue;
            }
            write!(f, "{entry:?}: {} accepted", self.of(entry, 0))?;
            if entry == Entry::Compare {
                let [equal, first, second, neither] = self.finer;
                write!(f, " (equal {equal}, first {first}, second {second}, neither {neither})")?;
            }
            if entry == Entry::Grant {
                write!(f, " ({})", self.grants)?;
            }
            if entry != Entry::NewPeriod {
                write!(f, "; refused")?;
            }
            for number in entry.numbers::<S>() {
                write!(f, " {number}: {}", self.of(entry, number))?;
            }
            writeln!(f)?;
        }
        write!(f, "{} calls", self.calls())
    }
}
