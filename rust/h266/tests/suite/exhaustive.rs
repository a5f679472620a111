//! Small units: every tree, and tables that no tree gives.

use h266::{read_unit, write_flags, Params, Settings};
use samples::brute::{all_trees, Beginnings, Trees};
use samples::{damage, settings, Rng};

const LIMIT: usize = 2_000;

/// Every tree turns back into its flags; damaged tables only if they are another tree's.
fn check_unit(rng: &mut Rng, settings: &Settings, address: u64, trees: &Trees) {
    let mut buffer = [0; 8192];
    let beginnings = Beginnings::of(trees);
    for (rows, flags) in trees {
        let answer = write_flags(settings, address, rows, &mut buffer);
        assert_eq!(answer, (0, flags.len() as u64));
        assert_eq!(buffer[..flags.len()], *flags);
        let mut other = rows.clone();
        damage::rows(rng, &mut other);
        let expected = match trees.get(&other) {
            Some(flags) => (0, flags.len() as u64),
            None if other.len() % 8 != 0 => (15, other.len() as u64 / 8),
            None => beginnings.refusal(&other),
        };
        assert_eq!(write_flags(settings, address, &other, &mut buffer), expected, "{other:?}");
    }
}

#[test]
fn every_tree_of_small_units() {
    let mut rng = Rng::new(21);
    let (mut units, mut tables) = (0, 0);
    for _ in 0..800 {
        let settings = settings::valid(&mut rng);
        let count = Params::new(&settings).expect("valid settings").unit_count();
        let address = rng.pick(&[0, count - 1, rng.clone().draw() % count]);
        let read = |flags: &[u8], rows: &mut [u8]| read_unit(&settings, address, flags, rows);
        let Some(trees) = all_trees(LIMIT, read) else { continue };
        check_unit(&mut rng, &settings, address, &trees);
        units += 1;
        tables += trees.len();
    }
    assert!(units > 250 && tables > 10_000, "{units} units with {tables} tables");
}

/// CTU 32, MinCb 16, MinQt 32, two levels: the block, two ways of halving it with four choices
/// each. With MinQt 16 a quad split comes on top.
#[test]
fn tree_counts_by_hand() {
    let count = |settings: Settings| {
        all_trees(LIMIT, |flags, rows| read_unit(&settings, 0, flags, rows))
            .map(|trees| trees.len())
    };
    assert_eq!(count([32, 16, 32, 2, 32, 32, 32, 32]), Some(9));
    assert_eq!(count([32, 16, 16, 2, 32, 32, 32, 32]), Some(10));
    assert_eq!(count([32, 32, 32, 0, 32, 32, 32, 32]), Some(1));
    assert_eq!(count([128, 4, 8, 10, 128, 64, 128, 128]), None);
}
