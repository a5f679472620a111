//! All trees of a unit, written from the sentences of document 02, R-10, alone.

use h265::Settings;
use samples::brute::Trees;

/// The flags and the rows of a tree.
type Tree = (Vec<u8>, Vec<u8>);

/// A node: left and upper edge, side, depth.
type Square = (u32, u32, u32, u32);

/// Every table of the unit with this corner, with the flags that give it.
pub fn of_unit(settings: &Settings, (x, y): (u32, u32)) -> Trees {
    let all = of_node(settings, (x, y, settings[0], 0));
    let count = all.len();
    let trees: Trees = all.into_iter().map(|(flags, rows)| (rows, flags)).collect();
    assert_eq!(trees.len(), count, "two trees with the same rows");
    trees
}

fn of_node(settings: &Settings, node: Square) -> Vec<Tree> {
    let [_, smallest, width, height] = *settings;
    let (x, y, side, depth) = node;
    // A child whose corner is outside the picture is skipped.
    if x >= width || y >= height {
        return vec![Tree::default()];
    }
    let out = x + side > width || y + side > height;
    let leaf = row(node);
    if side == smallest {
        assert!(!out, "a smallest block is inside");
        return vec![(vec![], leaf)];
    }
    let half = side / 2;
    let split = if out { vec![] } else { vec![1] };
    let mut all = vec![(split, vec![])];
    for (right, down) in [(0, 0), (half, 0), (0, half), (half, half)] {
        let parts = of_node(settings, (x + right, y + down, half, depth + 1));
        let joined = |(flags, rows): &Tree, (more_flags, more_rows): &Tree| {
            ([&flags[..], more_flags].concat(), [&rows[..], more_rows].concat())
        };
        all = all.iter().flat_map(|tree| parts.iter().map(|part| joined(tree, part))).collect();
    }
    if !out {
        all.push((vec![0], leaf));
    }
    all
}

/// The bytes of a row, as document 01 has them.
fn row((x, y, side, depth): Square) -> Vec<u8> {
    let exponent = (0..8).find(|&exponent| 1 << exponent == side).expect("a power of two");
    let low_and_high = |corner: u32| [(corner % 256) as u8, (corner / 256) as u8];
    [&low_and_high(x)[..], &low_and_high(y), &[exponent, exponent, depth as u8, 0]].concat()
}
