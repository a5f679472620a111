//! The smallest blocks of a unit in z-scan order (clause 6.5.2), and the nodes that begin at each.
//!
//! In this order a node's smallest blocks follow each other, and their number is a power of four that
//! divides the position of the first. So the place where the next row begins is known from the rows
//! before it, without the tree: it is the first smallest block that they leave, of those in the picture.

use crate::{Node, Params};

/// How far a scan of a unit has come.
#[derive(Clone, Copy)]
pub(crate) struct Scan<'a> {
    params: &'a Params,
    root: &'a Node,
    /// The smallest blocks before, those outside the picture counted, too.
    position: u32,
}

impl<'a> Scan<'a> {
    /// At the unit's corner, which lies in the picture.
    pub(crate) fn new(params: &'a Params, root: &'a Node) -> Self {
        Self { params, root, position: 0 }
    }

    /// Have all smallest blocks in the picture been left behind?
    #[inline]
    pub(crate) fn is_over(&self) -> bool {
        self.position >= self.blocks(self.root.log2_cb_size)
    }

    /// The node of this size here; only some sizes begin here ([`Scan::largest`]).
    #[inline]
    pub(crate) fn node(&self, log2_cb_size: u32) -> Node {
        let (across, down) = (even_bits(self.position), even_bits(self.position >> 1));
        Node {
            x0: self.root.x0 + (across << self.params.min_cb_log2_size_y),
            y0: self.root.y0 + (down << self.params.min_cb_log2_size_y),
            log2_cb_size,
            cqt_depth: self.root.log2_cb_size - log2_cb_size,
        }
    }

    /// The size of the largest node that begins here; all smaller ones begin here as well.
    #[inline]
    pub(crate) fn largest(&self) -> u32 {
        let aligned = self.params.min_cb_log2_size_y + self.position.trailing_zeros() / 2;
        aligned.min(self.root.log2_cb_size)
    }

    /// Goes past a node of this size that begins here, and past what lies outside the picture.
    #[inline]
    pub(crate) fn pass(&mut self, log2_cb_size: u32) {
        self.position += self.blocks(log2_cb_size);
        while !self.is_over() && !self.params.inside(&self.node(self.params.min_cb_log2_size_y)) {
            self.position += 1;
        }
    }

    /// How many smallest blocks a node of this size has.
    #[inline]
    fn blocks(&self, log2_cb_size: u32) -> u32 {
        1 << (2 * (log2_cb_size - self.params.min_cb_log2_size_y))
    }
}

/// The bits 0, 2 and 4 of a position, put together.
#[inline]
fn even_bits(position: u32) -> u32 {
    position & 1 | position >> 1 & 2 | position >> 2 & 4
}
