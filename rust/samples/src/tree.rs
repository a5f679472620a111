//! Trees that are changed at random.

use h266::{Allowed, Node, Params, Row, Split};

use crate::Rng;

/// A coding tree.
#[derive(Clone, Debug, PartialEq, Eq)]
pub enum Tree {
    /// A coding block.
    Leaf,
    /// A split, and the trees of its parts that begin inside the picture.
    Split(Split, Vec<Tree>),
}

/// The nodes of the parts of a split.
pub(crate) fn parts(params: &Params, node: &Node, split: Split) -> impl Iterator<Item = Node> {
    node.parts(params, split).into_iter().flatten()
}

/// The splits that are open to a node.
pub(crate) fn open(params: &Params, node: &Node) -> Vec<Split> {
    let allowed = Allowed::of(params, node);
    Split::ALL.into_iter().filter(|&split| allowed.has(split)).collect()
}

/// Do two nodes have the same sides?
fn same_size(one: &Node, other: &Node) -> bool {
    (one.cb_width, one.cb_height) == (other.cb_width, other.cb_height)
}

impl Tree {
    /// A random tree of a node; so many of 100 nodes are leaves that need not be.
    pub fn grow(params: &Params, node: &Node, rng: &mut Rng, leaves: usize) -> Self {
        let open = open(params, node);
        if params.inside(node) && (open.is_empty() || rng.percent(leaves)) {
            return Self::Leaf;
        }
        let split = rng.pick(&open);
        let grown = parts(params, node, split).map(|part| Self::grow(params, &part, rng, leaves));
        Self::Split(split, grown.collect())
    }

    /// How many nodes the tree has.
    pub fn nodes(&self) -> usize {
        match self {
            Self::Leaf => 1,
            Self::Split(_, trees) => 1 + trees.iter().map(Self::nodes).sum::<usize>(),
        }
    }

    /// Adds the rows of this tree of a node.
    pub fn rows(&self, params: &Params, node: &Node, rows: &mut Vec<Row>) {
        match self {
            Self::Leaf => rows.push(node.row()),
            Self::Split(split, trees) => {
                let parts = parts(params, node, *split);
                trees.iter().zip(parts).for_each(|(tree, part)| tree.rows(params, &part, rows));
            }
        }
    }

    /// The table of this tree of a unit.
    pub fn table(&self, params: &Params, root: &Node) -> Vec<u8> {
        let mut rows = Vec::new();
        self.rows(params, root, &mut rows);
        rows.into_iter().flat_map(Row::to_bytes).collect()
    }

    /// Is this a tree that the node may have?
    pub(crate) fn is_legal(&self, params: &Params, node: &Node) -> bool {
        match self {
            Self::Leaf => params.inside(node),
            Self::Split(split, trees) => {
                // At the picture's edge a split may have fewer parts.
                let parts: Vec<_> = parts(params, node, *split).collect();
                let mut pairs = trees.iter().zip(&parts);
                Allowed::of(params, node).has(*split)
                    && trees.len() == parts.len()
                    && pairs.all(|(tree, part)| tree.is_legal(params, part))
            }
        }
    }

    /// Calls `change` for each node, before its parts, until it answers true.
    fn walk(
        &mut self,
        params: &Params,
        node: &Node,
        change: &mut dyn FnMut(&mut Self, &Node) -> bool,
    ) -> bool {
        if change(self, node) {
            return true;
        }
        let Self::Split(split, trees) = self else { return false };
        let mut parts = parts(params, node, *split).zip(trees);
        parts.any(|(part, tree)| tree.walk(params, &part, change))
    }

    /// The tree at one place, counted from 0 in the order of the walk, and its node.
    pub fn at(&mut self, params: &Params, root: &Node, place: usize) -> (Self, Node) {
        let (mut found, mut count) = (None, 0);
        self.walk(params, root, &mut |tree, node| {
            count += 1;
            found = (count > place).then(|| (tree.clone(), *node));
            found.is_some()
        });
        found.expect("a place of the tree")
    }

    /// Grows the tree at one place anew.
    pub fn regrow(&mut self, params: &Params, root: &Node, place: usize, rng: &mut Rng) {
        let leaves = rng.pick(&[0, 0, 0, 3, 10, 25]);
        self.change(params, root, place, |_, node| Some(Self::grow(params, node, rng, leaves)));
    }

    /// Changes the first tree, from one place on, of which `other` makes another. Answers whether
    /// there is one.
    pub(crate) fn change(
        &mut self,
        params: &Params,
        root: &Node,
        from: usize,
        mut other: impl FnMut(&Self, &Node) -> Option<Self>,
    ) -> bool {
        let mut count = 0;
        self.walk(params, root, &mut |tree, node| {
            count += 1;
            let other = if count > from { other(tree, node) } else { None };
            match other {
                Some(other) => *tree = other,
                None => return false,
            }
            true
        })
    }

    /// Puts a tree in place of those of all nodes of this size that may have it, or of the first
    /// such node from one place on.
    pub fn put(
        &mut self,
        params: &Params,
        root: &Node,
        size: &Node,
        with: &Self,
        only: Option<usize>,
    ) {
        let mut count = 0;
        self.walk(params, root, &mut |tree, node| {
            count += 1;
            let wanted = only.is_none_or(|place| count > place);
            let fits = wanted && same_size(node, size) && with.is_legal(params, node);
            if fits {
                tree.clone_from(with);
            }
            fits && only.is_some()
        });
    }
}
