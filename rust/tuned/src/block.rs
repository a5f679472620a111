//! Nodes inside the picture, in a form that is quick to walk.
//!
//! Inside the picture no edge has to be watched and depthOffset no longer changes. What remains of
//! a node is the row that it would be as a coding unit.

use h266::Node;

/// A node inside the picture, as the number that its row's 8 bytes are, low byte first: x0, y0,
/// exponents of cbWidth and cbHeight, cqtDepth, mttDepth.
#[derive(Clone, Copy, PartialEq, Eq)]
pub(crate) struct Block(pub(crate) u64);

/// Where the fields of a row begin; mttDepth is the highest.
const Y0: u32 = 16;
const WIDTH: u32 = 32;
const HEIGHT: u32 = 40;
const CQT_DEPTH: u32 = 48;
pub(crate) const MTT_DEPTH: u32 = 56;

impl Block {
    pub(crate) fn of(node: &Node) -> Self {
        Self(u64::from_le_bytes(node.row().to_bytes()))
    }

    #[inline(always)]
    pub(crate) fn y0(self) -> u16 {
        (self.0 >> Y0) as u16
    }

    /// The exponents of both sides.
    #[inline(always)]
    pub(crate) fn sides(self) -> u16 {
        (self.0 >> WIDTH) as u16
    }

    #[inline(always)]
    pub(crate) fn cqt_depth(self) -> u8 {
        (self.0 >> CQT_DEPTH) as u8
    }

    #[inline(always)]
    pub(crate) fn mtt_depth(self) -> u8 {
        (self.0 >> MTT_DEPTH) as u8
    }

    /// The exponents of both sides, three bits each; they are 2 to 7.
    #[inline(always)]
    pub(crate) fn size_index(self) -> usize {
        let sides = usize::from(self.sides());
        (sides | sides >> 5) & 63
    }

    /// The four parts of a quad split.
    #[inline(always)]
    pub(crate) fn quarters(self) -> [Self; 4] {
        let first = self.0 + (1 << CQT_DEPTH) - (1 << WIDTH) - (1 << HEIGHT);
        let half = 1u64 << (first >> WIDTH & 7);
        [first, first + half, first + (half << Y0), first + half + (half << Y0)].map(Self)
    }

    /// Where the side that is cut has its exponent and its corner.
    #[inline(always)]
    fn cut_fields(vertical: bool) -> (u32, u32) {
        if vertical {
            (WIDTH, 0)
        } else {
            (HEIGHT, Y0)
        }
    }

    /// The two parts of a binary split.
    #[inline(always)]
    pub(crate) fn halves(self, vertical: bool) -> [Self; 2] {
        let (side, corner) = Self::cut_fields(vertical);
        let first = self.0 + (1 << MTT_DEPTH) - (1 << side);
        let half = 1 << (first >> side & 7);
        [first, first + (half << corner)].map(Self)
    }

    /// The three parts of a ternary split.
    #[inline(always)]
    pub(crate) fn thirds(self, vertical: bool) -> [Self; 3] {
        let (side, corner) = Self::cut_fields(vertical);
        let first = self.0 + (1 << MTT_DEPTH) - (2 << side);
        let quarter = (1 << (first >> side & 7)) << corner;
        [first, first + (1 << side) + quarter, first + 3 * quarter].map(Self)
    }

    /// The node that parts of a binary or ternary split, the first of them this one, come from:
    /// its y0 and sides are right.
    #[inline(always)]
    pub(crate) fn joined(self, vertical: bool, binary: bool) -> Self {
        let (side, _) = Self::cut_fields(vertical);
        Self(self.0.wrapping_add((2 - u64::from(binary)) << side))
    }
}
