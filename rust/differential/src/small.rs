//! Small units in full: every tree, found by brute force through the engine's own reader.

use std::collections::BTreeSet;

use samples::brute::{all_trees, tables, Beginnings, Trees};
use samples::{damage, Rng};

use crate::calls::ROOM;
use crate::{pages, Answers, Coding, Engine};

/// The most trees of a unit whose tables are all compared with each other.
const PAIRED: usize = 60;

/// Checks a unit in full and answers how many trees it has, or nothing where there are more than
/// `limit`.
pub fn unit<S: Coding>(
    engine: &mut Engine<S>,
    rng: &mut Rng,
    settings: &S,
    address: u64,
    limit: usize,
) -> Option<usize> {
    let [_, second, ..] = S::SIDES else { panic!("a second decoder") };
    let read = |flags: &[u8], rows: &mut [u8]| (second.read)(settings, address, flags, rows);
    let expected = all_trees(limit, read)?;
    let read = |flags: &[u8], rows: &mut [u8]| {
        let outcome = engine.read(rng, settings, address, flags, rows.len());
        rows[..outcome.written.len()].copy_from_slice(&outcome.written);
        (outcome.number, outcome.value)
    };
    let trees = all_trees(limit, read).expect("as many trees on both sides");
    assert!(trees == expected, "other trees: {settings:?}, unit {address}");
    way_back(engine, rng, settings, address, &trees);
    if !S::COMPARISONS.is_empty() && trees.len() <= PAIRED {
        Answers::of(engine, rng, settings, address, &tables(&trees));
    }
    Some(trees.len())
}

/// Every table turns back into its flags; a damaged one only if it is another tree's, and else
/// stops where no tree's table goes on.
fn way_back<S: Coding>(
    engine: &mut Engine<S>,
    rng: &mut Rng,
    settings: &S,
    address: u64,
    trees: &Trees,
) {
    // In order, so that each run damages the same tables.
    let tables: BTreeSet<_> = trees.iter().collect();
    let beginnings = Beginnings::of(trees);
    for (rows, flags) in tables {
        let back = pages::beside(engine, rng, settings, address, rows, ROOM);
        assert_eq!((back.number, &back.written), (0, flags), "{settings:?}, {rows:?}");
        let mut other = rows.clone();
        damage::rows(rng, &mut other);
        let back = pages::beside(engine, rng, settings, address, &other, ROOM);
        match trees.get(&other) {
            Some(flags) => assert_eq!((back.number, &back.written), (0, flags), "{other:?}"),
            None if other.len() % 8 != 0 => assert_eq!(back.number, 15, "{other:?}"),
            None => {
                let expected = beginnings.refusal(&other);
                assert_eq!((back.number, back.value), expected, "{settings:?}, {other:?}");
            }
        }
    }
}
