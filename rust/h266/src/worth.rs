//! How many flags a unit can have, alone and beside its rows, found by search.

use std::collections::HashMap;

use crate::check::unit_root;
use crate::{Allowed, Node, Params, Refusal, Settings, Split};

/// The greatest worth of a coding tree of this unit, where a flag is worth `flag` and a row `row`.
///
/// With 1 and 0 these are the most flags that the unit can have, with 1 and -4 it is by how much
/// they can exceed 4 for each row. All trees are searched, equal nodes once.
///
/// ```
/// let settings = [64, 4, 8, 8, 64, 64, 64, 64];
/// assert_eq!(h266::greatest_worth(&settings, 0, 1, 0), Ok(446));
/// assert_eq!(h266::greatest_worth(&settings, 0, 1, -4), Ok(-2));
/// ```
///
/// # Errors
///
/// Refusals 1 to 10.
pub fn greatest_worth(
    settings: &Settings,
    address: u64,
    flag: i32,
    row: i32,
) -> Result<i32, Refusal> {
    let (params, root) = unit_root(settings, address)?;
    Ok(Search { params, flag, row, found: HashMap::new() }.best(&root))
}

struct Search {
    params: Params,
    flag: i32,
    row: i32,
    found: HashMap<Node, i32>,
}

impl Search {
    /// The greatest worth of a coding tree of a node that begins inside the picture.
    fn best(&mut self, node: &Node) -> i32 {
        let inside = self.params.inside(node);
        let key = alike(node, inside);
        if let Some(&best) = self.found.get(&key) {
            return best;
        }
        let allowed = Allowed::of(&self.params, node);
        let split_cu_flag = i32::from(inside && allowed.any());
        let leaf = inside.then_some(split_cu_flag * self.flag + self.row);
        let worth = |split| {
            let flags = split_cu_flag + later_flags(&allowed, split);
            flags * self.flag + self.parts(node, split)
        };
        let split = Split::ALL.into_iter().filter(|&split| allowed.has(split)).map(worth).max();
        let best = leaf.max(split).expect("a leaf or a split");
        self.found.insert(key, best);
        best
    }

    fn parts(&mut self, node: &Node, split: Split) -> i32 {
        node.parts(&self.params, split).iter().flatten().map(|part| self.best(part)).sum()
    }
}

/// Nodes inside the picture are alike wherever they are, and all are at every quad depth.
fn alike(node: &Node, inside: bool) -> Node {
    let (x0, y0) = if inside { (0, 0) } else { (node.x0, node.y0) };
    Node { x0, y0, cqt_depth: 0, ..*node }
}

/// How many of split_qt_flag, mtt_split_cu_vertical_flag and mtt_split_cu_binary_flag are present
/// before this split is known.
fn later_flags(allowed: &Allowed, split: Split) -> i32 {
    let split_qt_flag = i32::from(allowed.qt && allowed.mtt());
    if split == Split::Qt {
        return split_qt_flag;
    }
    let (bt, tt) = allowed.along(split.is_vertical());
    split_qt_flag + i32::from(allowed.hor() && allowed.ver()) + i32::from(bt && tt)
}
