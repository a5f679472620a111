//! Where tables stop being trees: the scan beside plain comparison with every table of a unit.

use std::iter;

use h265::{write_flags, Settings};
use samples::brute::tables;
use samples::near::Near;
use samples::Rng;

use crate::listing;
use crate::trees::{as_last, one_unit};

/// The most trees of a unit whose tables are all broken in all ways.
const FEW: usize = 20;

/// How many of its tables are broken where there are more.
const SOME: usize = 100;

/// All tables of a unit, broken: in all ways, or at random where there are many.
fn check_unit(
    rng: &mut Rng,
    answers: &mut [usize; 29],
    (settings, address, corner): (Settings, u64, (u32, u32)),
) {
    let trees = &listing::of_unit(&settings, corner);
    let mut near = Near::new(trees, |rows| write_flags(&settings, address, rows, &mut [0; 64]));
    // In order, so that each run sees the same tables.
    let tables = tables(trees);
    let few = tables.len() <= FEW;
    let drawn = (0..SOME).map(|_| rng.pick(&tables)).collect();
    for rows in if few { tables.clone() } else { drawn } {
        near.check(rows);
        if few {
            near.check_around(rng, rows);
        } else {
            near.check_row(rng, rows);
        }
        let other = rng.pick(&tables);
        near.check_mixed(rng, rows, other);
    }
    near.add_to(answers);
}

#[test]
fn every_table_near_the_trees_of_a_unit() {
    let (mut rng, mut answers) = (Rng::new(41), [0; 29]);
    for settings in one_unit() {
        check_unit(&mut rng, &mut answers, (settings, 0, (0, 0)));
        check_unit(&mut rng, &mut answers, as_last(&settings));
    }
    println!("{answers:?}");
    assert!([0, 16, 27, 28].iter().all(|&number| answers[number] >= 10_000), "{answers:?}");
}

/// Any short list of rows that look like rows of this unit.
#[test]
fn all_short_tables_of_a_small_unit() {
    let mut answers = [0; 29];
    for settings in [[16, 8, 16, 16], [16, 8, 8, 16], [32, 16, 32, 32], [32, 16, 32, 16]] {
        let trees = &listing::of_unit(&settings, (0, 0));
        let mut near = Near::new(trees, |rows| write_flags(&settings, 0, rows, &mut [0; 64]));
        for table in short_tables(&plausible(settings[1] as u8)) {
            near.check(&table);
        }
        near.add_to(&mut answers);
    }
    assert!([0, 16, 27, 28].iter().all(|&number| answers[number] > 0), "{answers:?}");
}

/// All tables of at most two of these rows, and those of three whose third is every fifth of them.
fn short_tables(rows: &[[u8; 8]]) -> impl Iterator<Item = Vec<u8>> + '_ {
    let pairs = move || {
        let seconds = move |first| rows.iter().map(move |second| [first, *second].concat());
        rows.iter().copied().flat_map(seconds)
    };
    let thirds =
        move |pair: Vec<u8>| rows.iter().step_by(5).map(move |third| [&pair[..], third].concat());
    let ones = rows.iter().map(|row| row.to_vec());
    iter::once(vec![]).chain(ones).chain(pairs()).chain(pairs().flat_map(thirds))
}

/// Rows at the first three corners of smallest blocks each way, with sides and depths around theirs.
fn plausible(smallest: u8) -> Vec<[u8; 8]> {
    let exponent = smallest.trailing_zeros() as u8;
    let mut all = Vec::new();
    for (x, y) in (0..9).map(|corner| (corner % 3 * smallest, corner / 3 * smallest)) {
        for (width, height) in [(0, 0), (1, 1), (2, 2), (0, 1)] {
            let sides = [width, height].map(|more| exponent + more);
            all.extend([0, 1, 2].map(|depth| [x, 0, y, 0, sides[0], sides[1], depth, 0]));
        }
    }
    all
}
