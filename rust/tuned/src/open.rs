//! The open splits of nodes inside the picture, as sets of bits.

use h266::{Allowed, Node, Params};

use crate::block::{Block, MTT_DEPTH};

/// A set of splits: allowSplitQt and so on as one bit each.
#[derive(Clone, Copy, PartialEq, Eq)]
pub(crate) struct Open(u8);

impl Open {
    const QT: u8 = 1;
    const BT_HOR: u8 = 2;
    const BT_VER: u8 = 4;
    const TT_HOR: u8 = 8;
    const TT_VER: u8 = 16;
    const HOR: u8 = Self::BT_HOR | Self::TT_HOR;
    const VER: u8 = Self::BT_VER | Self::TT_VER;
    const MTT: u8 = Self::HOR | Self::VER;

    #[inline(always)]
    pub(crate) fn any(self) -> bool {
        self.0 != 0
    }

    #[inline(always)]
    pub(crate) fn qt(self) -> bool {
        self.0 & Self::QT != 0
    }

    #[inline(always)]
    pub(crate) fn mtt(self) -> bool {
        self.0 & Self::MTT != 0
    }

    #[inline(always)]
    pub(crate) fn hor(self) -> bool {
        self.0 & Self::HOR != 0
    }

    #[inline(always)]
    pub(crate) fn ver(self) -> bool {
        self.0 & Self::VER != 0
    }

    /// The binary and the ternary split of one direction.
    #[inline(always)]
    pub(crate) fn along(self, vertical: bool) -> (bool, bool) {
        let one = self.0 >> u8::from(vertical);
        (one & Self::BT_HOR != 0, one & Self::TT_HOR != 0)
    }

    /// Without the binary split of one direction: the middle part's rule in clause 6.4.2.
    #[inline(always)]
    pub(crate) fn without_bt(self, vertical: bool) -> Self {
        Self(self.0 & !(Self::BT_HOR << u8::from(vertical)))
    }

    #[inline(always)]
    fn both(self, other: Self) -> Self {
        Self(self.0 & other.0)
    }
}

impl From<Allowed> for Open {
    fn from(allowed: Allowed) -> Self {
        let bits = [allowed.qt, allowed.bt_hor, allowed.bt_ver, allowed.tt_hor, allowed.tt_ver];
        Self(bits.iter().rev().fold(0, |set, &bit| set << 1 | u8::from(bit)))
    }
}

/// The splits that sizes leave open, found once for each size, and the greatest depth.
pub(crate) struct Inner<'a> {
    params: &'a Params,
    by_size: [u8; 64],
    /// MaxMttDepthY + depthOffset, as the row's highest byte.
    max_mtt_depth: u64,
}

/// Marks a size whose splits were found.
const FOUND: u8 = 128;

impl<'a> Inner<'a> {
    #[inline(always)]
    pub(crate) fn new(params: &'a Params) -> Self {
        Self { params, by_size: [0; 64], max_mtt_depth: 0 }
    }

    /// Enters the picture's inside at this node and gives the splits that its depth leaves it.
    #[inline(always)]
    pub(crate) fn enter(&mut self, node: &Node) -> Open {
        let max_mtt_depth = self.params.max_mtt_depth_y + node.depth_offset;
        self.max_mtt_depth = u64::from(max_mtt_depth) << MTT_DEPTH;
        let quad = if node.mtt_depth == 0 { Open::QT } else { 0 };
        Open(self.below_mtt(Block::of(node)).0 | quad)
    }

    /// What the depth leaves to this part of a binary or ternary split. A quad split's parts have
    /// the depth of their parent, and so what it leaves.
    #[inline(always)]
    pub(crate) fn below_mtt(&self, part: Block) -> Open {
        Open(if part.0 < self.max_mtt_depth { Open::MTT } else { 0 })
    }

    /// The splits that a block may have, of those that its depth leaves it.
    #[inline(always)]
    pub(crate) fn open(&mut self, block: Block, usable: Open) -> Open {
        let found = self.by_size[block.size_index()];
        let sizes = if found != 0 { found } else { self.find(block) };
        Open(sizes).both(usable)
    }

    /// The splits for the block's size at depth 0, in the picture's corner: also there the block
    /// lies inside.
    #[inline(never)]
    fn find(&mut self, block: Block) -> u8 {
        let [width, height] = block.sides().to_le_bytes();
        let node = Node::new(0, 0, 1 << width, 1 << height);
        let allowed = Allowed::of(self.params, &node);
        let found = Open::from(allowed).0 | FOUND;
        self.by_size[block.size_index()] = found;
        found
    }
}
