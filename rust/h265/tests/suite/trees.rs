//! Every tree of a unit, in both directions, beside the listing.

use h265::{read_unit, write_flags, Params, Settings};
use samples::brute::{all_trees, Trees};

use crate::listing;

/// Both directions of each tree.
fn check_trees(settings: &Settings, address: u64, trees: &Trees) {
    for (table, flags) in trees {
        let (count, mut rows) = (table.len() / 8, vec![0; table.len()]);
        assert_eq!(read_unit(settings, address, flags, &mut rows), (0, count as u64));
        assert_eq!(rows, *table, "{settings:?}, unit {address}, {flags:?}");
        let mut back = vec![7; flags.len()];
        let answer = write_flags(settings, address, table, &mut back);
        assert_eq!(answer, (0, flags.len() as u64), "{settings:?}, unit {address}, {table:?}");
        assert_eq!(back, *flags, "{settings:?}, unit {address}, {table:?}");
    }
}

/// The settings of all pictures of one unit.
pub fn one_unit() -> Vec<Settings> {
    let mut all = Vec::new();
    for (ctu, smallest) in [16, 32, 64].into_iter().flat_map(|c| [8, 16, 32, 64].map(|s| (c, s))) {
        let sides: Vec<u32> = (smallest..=ctu).step_by(smallest as usize).collect();
        let pictures = sides.iter().flat_map(|&width| sides.iter().map(move |&h| (width, h)));
        all.extend(pictures.map(|(width, height)| [ctu, smallest, width, height]));
    }
    assert!(all.iter().all(|settings| Params::new(settings).is_ok()));
    all
}

/// The same unit as the last one of a larger picture: settings, address and corner.
pub fn as_last(settings: &Settings) -> (Settings, u64, (u32, u32)) {
    let [ctu, smallest, width, height] = *settings;
    // Three units across and two down.
    ([ctu, smallest, 2 * ctu + width, ctu + height], 5, (2 * ctu, ctu))
}

/// At the picture's corner and elsewhere; as the reader finds them by brute force, too.
#[test]
fn every_tree_of_every_unit() {
    let (mut units, mut tables) = (0, 0);
    for small in one_unit() {
        for (settings, address, corner) in [(small, 0, (0, 0)), as_last(&small)] {
            let trees = listing::of_unit(&settings, corner);
            check_trees(&settings, address, &trees);
            if trees.len() <= 2_000 {
                let read =
                    |flags: &[u8], rows: &mut [u8]| read_unit(&settings, address, flags, rows);
                assert!(all_trees(5_000, read).as_ref() == Some(&trees), "{settings:?}");
            }
            units += 1;
            tables += trees.len();
        }
    }
    println!("{units} units, {tables} tables");
    assert_eq!(units, 2 * 111);
    assert!(tables >= 200_000, "{tables} tables");
}

/// A block of 16 by 16 has 2 trees, one of 32 by 32 1 + 2^4 and one of 64 by 64 1 + 17^4.
#[test]
fn tree_counts_by_hand() {
    let count = |settings| listing::of_unit(&settings, (0, 0)).len();
    assert_eq!(count([16, 8, 16, 16]), 2);
    assert_eq!(count([32, 8, 32, 32]), 17);
    assert_eq!(count([64, 8, 64, 64]), 83_522);
    assert_eq!(count([64, 16, 64, 64]), 17);
    assert_eq!(count([64, 64, 64, 64]), 1);
    // One quarter, or two of them.
    assert_eq!(count([64, 8, 32, 32]), 17);
    assert_eq!(count([64, 8, 64, 32]), 17 * 17);
    // Smallest blocks only.
    assert_eq!(count([64, 8, 8, 64]), 1);
}
