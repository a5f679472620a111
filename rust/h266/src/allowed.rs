//! Clauses 6.4.1 to 6.4.3: which splits a node may have.

use crate::{Node, Params, Split};

/// allowSplitQt, allowSplitBtHor, allowSplitBtVer, allowSplitTtHor and allowSplitTtVer of a node.
#[derive(Clone, Copy, Debug, PartialEq, Eq)]
pub struct Allowed {
    /// allowSplitQt.
    pub qt: bool,
    /// allowSplitBtHor.
    pub bt_hor: bool,
    /// allowSplitBtVer.
    pub bt_ver: bool,
    /// allowSplitTtHor.
    pub tt_hor: bool,
    /// allowSplitTtVer.
    pub tt_ver: bool,
}

impl Allowed {
    /// The splits that a node may have.
    #[inline]
    pub fn of(params: &Params, node: &Node) -> Self {
        Self {
            qt: allow_split_qt(params, node),
            bt_hor: allow_split_bt(params, node, Split::BtHor),
            bt_ver: allow_split_bt(params, node, Split::BtVer),
            tt_hor: allow_split_tt(params, node, Split::TtHor),
            tt_ver: allow_split_tt(params, node, Split::TtVer),
        }
    }

    /// Is a horizontal binary or ternary split allowed?
    #[inline]
    pub fn hor(&self) -> bool {
        self.bt_hor || self.tt_hor
    }

    /// Is a vertical binary or ternary split allowed?
    #[inline]
    pub fn ver(&self) -> bool {
        self.bt_ver || self.tt_ver
    }

    /// Is a binary or ternary split allowed?
    #[inline]
    pub fn mtt(&self) -> bool {
        self.hor() || self.ver()
    }

    /// The binary and the ternary split of one direction.
    #[inline]
    pub fn along(&self, vertical: bool) -> (bool, bool) {
        if vertical {
            (self.bt_ver, self.tt_ver)
        } else {
            (self.bt_hor, self.tt_hor)
        }
    }

    /// Is any split allowed?
    #[inline]
    pub fn any(&self) -> bool {
        self.qt || self.mtt()
    }

    /// Is this split allowed?
    #[inline]
    pub fn has(&self, split: Split) -> bool {
        match split {
            Split::Qt => self.qt,
            Split::BtHor => self.bt_hor,
            Split::BtVer => self.bt_ver,
            Split::TtHor => self.tt_hor,
            Split::TtVer => self.tt_ver,
        }
    }
}

/// Clause 6.4.1.
#[inline]
fn allow_split_qt(p: &Params, n: &Node) -> bool {
    n.cb_width > p.min_qt_size_y && n.mtt_depth == 0
}

/// Clause 6.4.2, with btSplit as an argument.
#[inline]
fn allow_split_bt(p: &Params, n: &Node, bt_split: Split) -> bool {
    let ver = bt_split == Split::BtVer;
    let hor = !ver;
    let (cb_size, parallel_tt_split) =
        if ver { (n.cb_width, Split::TtVer) } else { (n.cb_height, Split::TtHor) };
    let right = p.beyond_right(n);
    let bottom = p.beyond_bottom(n);
    !(cb_size <= p.min_cb_size_y
        || n.cb_width > p.max_bt_size_y
        || n.cb_height > p.max_bt_size_y
        || n.mtt_depth >= p.max_mtt_depth_y + n.depth_offset
        || ver && bottom
        || ver && n.cb_height > 64 && right
        || hor && n.cb_width > 64 && bottom
        || right && bottom && n.cb_width > p.min_qt_size_y
        || hor && right && !bottom
        || n.mtt_depth > 0 && n.part_idx == 1 && n.parent_split == Some(parallel_tt_split)
        || ver && n.cb_width <= 64 && n.cb_height > 64
        || hor && n.cb_width > 64 && n.cb_height <= 64)
}

/// Clause 6.4.3, with ttSplit as an argument.
#[inline]
fn allow_split_tt(p: &Params, n: &Node, tt_split: Split) -> bool {
    let cb_size = if tt_split == Split::TtVer { n.cb_width } else { n.cb_height };
    let max_tt_size = p.max_tt_size_y.min(64);
    !(cb_size <= 2 * p.min_cb_size_y
        || n.cb_width > max_tt_size
        || n.cb_height > max_tt_size
        || n.mtt_depth >= p.max_mtt_depth_y + n.depth_offset
        || p.beyond_right(n)
        || p.beyond_bottom(n))
}
