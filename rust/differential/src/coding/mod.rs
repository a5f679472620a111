//! What is compared: the sides of a coding, and where its random inputs come from.

mod h265;
mod h266;

use std::fmt::Debug;

use ::h266::{Answer, Bank};
use samples::relatives::Change;
use samples::Rng;

/// The calls of one side on units: the engine's, or a decoder's.
pub struct Side<S> {
    /// Flags to rows.
    pub read: OnUnit<S>,
    /// Rows to flags.
    pub write: OnUnit<S>,
    /// A unit of a session.
    pub unit: fn(&S, &mut u64, u64, &[u8], &mut [u8]) -> Answer,
}

/// A call on a unit at an address: what is given, and the lent buffer.
pub type OnUnit<S> = fn(&S, u64, &[u8], &mut [u8]) -> Answer;

/// A call on two tables of the unit at an address.
pub type OnTables<S> = fn(&S, u64, &[u8], &[u8]) -> Answer;

/// A call of a camera of a bank: its session, the address named, the flags given, and the lent buffer.
pub type OnBank<S> = fn(&mut Bank, u64, &S, &mut u64, u64, &[u8], &mut [u8]) -> Answer;

/// The calls of one side on a bank of cameras.
pub struct BankSide<S> {
    /// A unit of a camera's session.
    pub grant: OnBank<S>,
    /// A new period.
    pub new_period: fn(&mut Bank),
}

/// The calls of one side on settings.
pub struct Opening<S> {
    /// Opens a session.
    pub open: fn(&S, &mut u64) -> Answer,
    /// Counts the units.
    pub count: fn(&S) -> Answer,
}

/// A coding, H.266 or H.265: its settings say which.
pub trait Coding: Copy + Debug + Sized + 'static {
    /// All sides, the engine first.
    const SIDES: &[Side<Self>];
    /// Those that open sessions of their own.
    const OPENINGS: [Opening<Self>; 2];
    /// Those that print pages; H.265 has no page.
    const PAGES: &[OnUnit<Self>];
    /// Those that compare tables; H.265 has no comparison.
    const COMPARISONS: &[OnTables<Self>];
    /// Those that grant units to cameras; H.265 has no grant.
    const BANKS: &[BankSide<Self>];
    /// The refusals of settings, in the order of the checks.
    const FAULTS: &[usize];
    /// What kind of tree to grow.
    type Style: Copy;
    /// All kinds.
    const STYLES: &[Self::Style];

    /// Settings that pass all checks.
    fn valid(rng: &mut Rng) -> Self;
    /// Settings that are likely to be refused.
    fn invalid(rng: &mut Rng) -> Self;
    /// Settings that differ in one number and pass all checks.
    fn neighbour(&self, rng: &mut Rng) -> Self;
    /// The same settings of another picture.
    fn with_picture(self, width: u32, height: u32) -> Self;
    /// Width and height.
    fn picture(&self) -> (u32, u32);
    /// The side of the pipeline units, which is the wrapper's too.
    fn pipeline_side(&self) -> u32;
    /// The most rows that a unit has, by the wrapper.
    fn max_rows(&self) -> usize;
    /// The most flags that a unit has, by the wrapper.
    fn max_flags(&self) -> usize;
    /// The flags of a random tree of this kind.
    fn flags(&self, address: u64, rng: &mut Rng, style: Self::Style) -> Vec<u8>;
    /// The rows of a tree that breaks a rule somewhere.
    fn lawless_rows(&self, address: u64, rng: &mut Rng) -> Vec<u8>;
    /// The tables of a random tree, as it was and after each of these changes in turn, if the coding has
    /// comparisons and the tree can be changed so.
    fn related(&self, address: u64, rng: &mut Rng, changes: &[Change]) -> Option<Vec<Vec<u8>>>;

    /// The flags of a random tree of any kind.
    fn any_flags(&self, address: u64, rng: &mut Rng) -> Vec<u8> {
        let style = rng.pick(Self::STYLES);
        self.flags(address, rng, style)
    }

    /// How many units the picture has.
    ///
    /// # Panics
    ///
    /// Where the settings are refused.
    fn unit_count(&self) -> u64 {
        let [_, second] = Self::OPENINGS;
        match (second.count)(self) {
            (0, count) => count,
            refused => panic!("{self:?} answered {refused:?}"),
        }
    }
}
