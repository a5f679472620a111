//! How many flags a unit can have: by its CTU side, and by its rows.

use h266::{greatest_worth, read_unit, Params, Settings};
use samples::brute::all_trees;

const SIDES: [u32; 6] = [4, 8, 16, 32, 64, 128];

/// All settings with this CTU side, of pictures of one whole unit.
fn all_settings(ctu: u32) -> Vec<Settings> {
    let mut all = Vec::new();
    for (min_cb, min_qt) in SIDES.into_iter().flat_map(|cb| SIDES.map(|qt| (cb, qt))) {
        for (max_bt, max_tt) in SIDES.into_iter().flat_map(|bt| SIDES.map(|tt| (bt, tt))) {
            all.extend((0..=10).map(|m| [ctu, min_cb, min_qt, m, max_bt, max_tt, ctu, ctu]));
        }
    }
    all.retain(|settings| Params::new(settings).is_ok());
    all
}

/// The widths and heights of pictures of one unit with this CTU side.
fn pictures(ctu: u32) -> impl Iterator<Item = (u32, u32)> {
    let sides = move || (8..=ctu).step_by(8);
    sides().flat_map(move |width| sides().map(move |height| (width, height)))
}

/// Such pictures, with every MinQt and no other limit.
fn all_edges(ctu: u32) -> Vec<Settings> {
    let deepest = 2 * (ctu.ilog2() - 2);
    let of =
        |(width, height)| SIDES.map(|qt| [ctu, 4, qt, deepest, ctu, ctu.min(64), width, height]);
    let mut all: Vec<Settings> = pictures(ctu).flat_map(of).collect();
    all.retain(|settings| Params::new(settings).is_ok());
    all
}

/// The greatest worth of a tree in any of these pictures, for these worths of a flag and a row.
fn greatest(all: &[Settings], (flag, row): (i32, i32)) -> i32 {
    let worth = |settings| greatest_worth(settings, 0, flag, row).expect("a unit");
    all.iter().map(worth).max().expect("some pictures")
}

#[test]
fn by_the_ctu_side() {
    for (ctu, most) in [(32, 110), (64, 446), (128, 1786)] {
        assert_eq!(greatest(&all_settings(ctu), (1, 0)), most, "CTU side {ctu}");
        assert_eq!(greatest(&all_edges(ctu), (1, 0)), most, "CTU side {ctu}, at the edges");
    }
}

/// At most 4 flags for each row, less 2, and so at most 6 for each row, less 4. For one row, at the
/// edge, both are reached.
#[test]
fn by_the_rows() {
    for ctu in [32, 64, 128] {
        for all in [all_settings(ctu), all_edges(ctu)] {
            assert!(greatest(&all, (1, -4)) <= -2, "CTU side {ctu}");
            assert!(greatest(&all, (1, -6)) <= -4, "CTU side {ctu}");
        }
        assert_eq!(greatest(&all_edges(ctu), (1, -4)), -2, "CTU side {ctu}, at the edges");
        assert_eq!(greatest(&all_edges(ctu), (1, -6)), -4, "CTU side {ctu}, at the edges");
    }
}

/// 4 flags for each row, less 2, are had by up to so many rows: of the trees with the most flags
/// beside 4 for each row, that with the most rows.
#[test]
fn rows_with_the_most_flags() {
    for (ctu, rows) in [(32, 16), (64, 64), (128, 64)] {
        for all in [all_settings(ctu), all_edges(ctu)] {
            let most = greatest(&all, (10_000, -39_999));
            assert!(most <= rows - 20_000, "CTU side {ctu}");
        }
        assert_eq!(greatest(&all_edges(ctu), (10_000, -39_999)), rows - 20_000, "CTU side {ctu}");
    }
}

/// The search finds what going through all trees finds.
#[test]
fn as_among_all_trees() {
    let mut units = 0;
    for (width, height) in pictures(64) {
        let settings = [64, 8, 8, 2, 32, 16, width, height];
        let read = |flags: &[u8], rows: &mut [u8]| read_unit(&settings, 0, flags, rows);
        let Some(trees) = all_trees(2_000, read) else { continue };
        for (flag, row) in [(1, 0), (1, -4), (3, -7)] {
            let worth = |(rows, flags): (&Vec<u8>, &Vec<u8>)| {
                flag * flags.len() as i32 + row * (rows.len() / 8) as i32
            };
            let found = trees.iter().map(worth).max();
            assert_eq!(greatest_worth(&settings, 0, flag, row).ok(), found, "{settings:?}");
        }
        units += 1;
    }
    assert!(units >= 20, "{units} units");
}
