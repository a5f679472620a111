//! A model of how the engine searches for where a table stops being a tree.

use h266::{Allowed, Node, Params, Row, Split};

/// The cuts in the order in which they are tried.
const CUTS: [Split; 4] = [Split::BtHor, Split::BtVer, Split::TtHor, Split::TtVer];

/// How many nodes the search enters for these rows.
pub fn visits(params: &Params, root: &Node, rows: &[Row]) -> usize {
    let mut model = Model { params, rows, visits: 0 };
    // What the search finds plays no part here.
    let _ = model.node(root, 0);
    model.visits
}

struct Model<'a> {
    params: &'a Params,
    rows: &'a [Row],
    visits: usize,
}

impl Model<'_> {
    /// Where the rows of a whole tree of the node end, or how far those of some tree reach.
    fn node(&mut self, node: &Node, at: usize) -> Result<usize, usize> {
        self.visits += 1;
        let (row, own) = (*self.rows.get(at).ok_or(at)?, node.row());
        if (row.x0, row.y0) != (own.x0, own.y0) {
            return Err(at);
        }
        if row.cqt_depth > own.cqt_depth {
            return self.first_whole(node, &[Split::Qt], at);
        }
        if row.mtt_depth == own.mtt_depth {
            let leaf = row == own && self.params.inside(node);
            return if leaf { Ok(at + 1) } else { Err(at) };
        }
        self.first_whole(node, &CUTS, at)
    }

    /// Tries splits in turn, as far as they are open.
    fn first_whole(&mut self, node: &Node, splits: &[Split], at: usize) -> Result<usize, usize> {
        let allowed = Allowed::of(self.params, node);
        let mut reached = at;
        for &split in splits.iter().filter(|&&split| allowed.has(split)) {
            let mut parts = node.parts(self.params, split).into_iter().flatten();
            match parts.try_fold(at, |at, part| self.node(&part, at)) {
                Ok(end) => return Ok(end),
                Err(here) => reached = reached.max(here),
            }
        }
        Err(reached)
    }
}
