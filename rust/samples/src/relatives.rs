//! Trees that changes make of others, and which of their tables is finer.

use h266::check::unit_root;
use h266::{Node, Params, Settings, Split};

use crate::tree::{open, parts, Tree};
use crate::Rng;

/// What is done to a tree.
#[derive(Clone, Copy, Debug, PartialEq, Eq)]
pub enum Change {
    /// A block is split.
    Split,
    /// A node that was split is one block.
    Merge,
    /// A node in quarters has them by other splits: by a quad split, or by halves that are halved.
    Recut,
    /// The tree of a node is grown anew.
    Regrow,
}

impl Change {
    /// All of them.
    pub const ALL: [Self; 4] = [Self::Split, Self::Merge, Self::Recut, Self::Regrow];

    /// What comparing the table before the change with that after it answers, by R-9's words: 0 for
    /// equal blocks, 1 where the first is finer, 2 where the second is. Nothing where that is open.
    pub fn answer(self) -> Option<u64> {
        match self {
            Self::Split => Some(2),
            Self::Merge => Some(1),
            Self::Recut => Some(0),
            Self::Regrow => None,
        }
    }

    /// The same of the tables before this change and after another that follows it, by R-11's laws:
    /// nothing where one of the two is open, or one makes the table finer and the other coarser.
    pub fn answer_with(self, next: Self) -> Option<u64> {
        match (self.answer()?, next.answer()?) {
            (0, answer) | (answer, 0) => Some(answer),
            (one, other) => (one == other).then_some(one),
        }
    }

    /// What becomes of the tree of a node; nothing where this change is not possible there.
    fn of(self, params: &Params, node: &Node, tree: &Tree, rng: &mut Rng) -> Option<Tree> {
        match self {
            Self::Split if *tree == Tree::Leaf => split(params, node, rng),
            Self::Split => None,
            Self::Merge => (params.inside(node) && *tree != Tree::Leaf).then_some(Tree::Leaf),
            Self::Recut => recut(params, node, tree, rng),
            Self::Regrow => Some(grow(params, node, rng)),
        }
    }
}

/// The tables of a random tree of this unit, as it was and after each of these changes in turn, each at
/// a random node; nothing where one of the changes is possible at no node.
///
/// # Panics
///
/// Where the settings are refused or there is no such unit.
pub fn tables(
    rng: &mut Rng,
    settings: &Settings,
    address: u64,
    changes: &[Change],
) -> Option<Vec<Vec<u8>>> {
    let (params, root) = unit_root(settings, address).expect("a unit of the picture");
    let mut tree = grow(&params, &root, rng);
    let mut tables = vec![tree.table(&params, &root)];
    for change in changes {
        let from = rng.below(tree.nodes());
        let mut changed = |from| {
            tree.change(&params, &root, from, |tree, node| change.of(&params, node, tree, rng))
        };
        // From a random node on, else from the root on.
        if !changed(from) && !changed(0) {
            return None;
        }
        tables.push(tree.table(&params, &root));
    }
    Some(tables)
}

/// A random tree, with few leaves or many.
fn grow(params: &Params, node: &Node, rng: &mut Rng) -> Tree {
    let leaves = rng.pick(&[10, 30, 50, 70]);
    Tree::grow(params, node, rng, leaves)
}

/// A node that is split, into blocks.
fn split(params: &Params, node: &Node, rng: &mut Rng) -> Option<Tree> {
    let open = open(params, node);
    if open.is_empty() {
        return None;
    }
    let split = rng.pick(&open);
    // The node lies inside the picture, and so do its parts.
    Some(Tree::Split(split, parts(params, node, split).map(|_| Tree::Leaf).collect()))
}

/// A node in the same quarters by other splits.
fn recut(params: &Params, node: &Node, tree: &Tree, rng: &mut Rng) -> Option<Tree> {
    let quarters = quarters(tree)?;
    let mut others = cuts(&quarters).to_vec();
    others.retain(|other| other != tree && other.is_legal(params, node));
    if others.is_empty() {
        return None;
    }
    let chosen = rng.below(others.len());
    Some(others.swap_remove(chosen))
}

/// The trees of the quarters of a node, from left to right and then down, where it has four.
fn quarters(tree: &Tree) -> Option<[Tree; 4]> {
    match tree {
        Tree::Split(Split::Qt, parts) => parts.clone().try_into().ok(),
        Tree::Split(Split::BtHor, _) => {
            let [[a, b], [c, d]] = halves_of_halves(tree, Split::BtHor, Split::BtVer)?;
            Some([a, b, c, d])
        }
        _ => {
            let [[a, c], [b, d]] = halves_of_halves(tree, Split::BtVer, Split::BtHor)?;
            Some([a, b, c, d])
        }
    }
}

/// The halves of the halves of a tree, where it is split so, and then each half.
fn halves_of_halves(tree: &Tree, first: Split, then: Split) -> Option<[[Tree; 2]; 2]> {
    let [one, other] = halves(tree, first)?;
    Some([halves(&one, then)?, halves(&other, then)?])
}

/// The two parts of a tree that is split so.
fn halves(tree: &Tree, by: Split) -> Option<[Tree; 2]> {
    match tree {
        Tree::Split(split, parts) if *split == by => parts.clone().try_into().ok(),
        _ => None,
    }
}

/// A node with these quarters by each of the splits that give them.
fn cuts(quarters: &[Tree; 4]) -> [Tree; 3] {
    let [a, b, c, d] = quarters;
    let halved =
        |split, one: &Tree, other: &Tree| Tree::Split(split, vec![one.clone(), other.clone()]);
    let lines = [halved(Split::BtVer, a, b), halved(Split::BtVer, c, d)];
    let columns = [halved(Split::BtHor, a, c), halved(Split::BtHor, b, d)];
    [
        Tree::Split(Split::Qt, quarters.to_vec()),
        Tree::Split(Split::BtHor, lines.to_vec()),
        Tree::Split(Split::BtVer, columns.to_vec()),
    ]
}
