//! Where tables stop being trees: the search beside plain comparison with every table of a unit.

use h266::{read_unit, write_flags, Params, Settings};
use samples::brute::{all_trees, tables, Trees};
use samples::near::Near;
use samples::{broken, small, trees, Rng, Style};

/// The most trees of a unit here.
const LIMIT: usize = 100;

/// All trees of a unit, where they are few.
fn few_trees(settings: &Settings, address: u64) -> Option<Trees> {
    all_trees(LIMIT, |flags, rows| read_unit(settings, address, flags, rows))
}

/// The first unit, and the last, which may reach over an edge.
fn addresses(settings: &Settings) -> Vec<u64> {
    let last = Params::new(settings).expect("valid settings").unit_count() - 1;
    if last == 0 {
        vec![0]
    } else {
        vec![0, last]
    }
}

#[test]
fn every_table_near_the_trees_of_small_units() {
    let (mut rng, mut answers) = (Rng::new(31), [0; 29]);
    let mut units = 0;
    for settings in small::settings() {
        for address in addresses(&settings) {
            let Some(trees) = few_trees(&settings, address) else { continue };
            check_unit(&mut rng, &mut answers, settings, address, &trees);
            units += 1;
        }
    }
    println!("{units} units: {answers:?}");
    assert!(units >= 500, "{units} units");
    assert!([0, 16, 27, 28].iter().all(|&number| answers[number] >= 10_000), "{answers:?}");
}

fn check_unit(
    rng: &mut Rng,
    answers: &mut [usize; 29],
    settings: Settings,
    address: u64,
    trees: &Trees,
) {
    let write = |rows: &[u8]| write_flags(&settings, address, rows, &mut [0; 8192]);
    let mut near = Near::new(trees, write);
    // In order, so that each run sees the same tables.
    let tables = tables(trees);
    for rows in &tables {
        assert!(broken::cut(rows).iter().all(|cut| !trees.contains_key(cut)), "{rows:?}");
        near.check(rows);
        near.check_around(rng, rows);
        let other = rng.pick(&tables);
        near.check_mixed(rng, rows, other);
    }
    near.add_to(answers);
}

/// A unit of the largest side in blocks of 4 by 4: 1,024 rows, by random cuts or by quads alone.
fn full(settings: &Settings, seed: u64) -> Vec<u8> {
    let flags = trees::flags(settings, 0, &mut Rng::new(seed), Style::Smallest);
    let mut rows = vec![0; 8192];
    assert_eq!(read_unit(settings, 0, &flags, &mut rows), (0, 1024));
    rows
}

/// The table cut before each row, with each row broken so that it fits no tree, and going on.
#[test]
fn each_row_of_1024() {
    for settings in [[128, 4, 4, 0, 128, 64, 128, 128], [128, 4, 8, 10, 128, 64, 128, 128]] {
        let rows = full(&settings, 1);
        for row in 0..1024 {
            let answer = |table: &[u8]| write_flags(&settings, 0, table, &mut [0; 8192]);
            let mut broken = rows.clone();
            // Corners are multiples of 4.
            broken[8 * row] += 1;
            assert_eq!(answer(&broken), (16, row as u64), "{settings:?}");
            assert_eq!(answer(&rows[..8 * row]), (27, row as u64), "{settings:?}");
            let more = [&rows, &rows[8 * row..]].concat();
            assert_eq!(answer(&more), (28, 1024), "{settings:?}");
        }
    }
}

/// The left upper quarter of a unit comes first by either cut, so its rows tell nothing of it: the
/// place is where the last of the trees ends that begin alike.
#[test]
fn rows_that_two_trees_share() {
    let settings = [32, 4, 32, 2, 32, 32, 32, 32];
    let quarter = |x, y| [x, 0, y, 0, 4, 4, 0, 2];
    let [first, right, below, last] =
        [(0, 0), (16, 0), (0, 16), (16, 16)].map(|(x, y)| quarter(x, y));
    let answer = |rows: &[[u8; 8]]| write_flags(&settings, 0, &rows.concat(), &mut [0; 99]);
    for second in [right, below] {
        assert_eq!(answer(&[first]), (27, 1));
        assert_eq!(answer(&[first, second]), (27, 2));
        assert_eq!(answer(&[first, second, second]), (16, 2));
    }
    assert_eq!(answer(&[first, right, below, last]).0, 0);
    assert_eq!(answer(&[first, below, right, last]).0, 0);
    assert_eq!(answer(&[first, last, right, below]), (16, 1));
    assert_eq!(answer(&[first, right, below, last, last]), (28, 4));
}
