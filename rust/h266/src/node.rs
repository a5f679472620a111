//! A node of the coding tree and its parts.

use crate::{Params, Row, Split};

/// The arguments of one coding_tree( ) call, and how the parent was split.
#[derive(Clone, Copy, Debug, PartialEq, Eq, Hash)]
pub struct Node {
    /// Left edge.
    pub x0: u32,
    /// Top edge.
    pub y0: u32,
    /// cbWidth.
    pub cb_width: u32,
    /// cbHeight.
    pub cb_height: u32,
    /// cqtDepth.
    pub cqt_depth: u32,
    /// mttDepth.
    pub mtt_depth: u32,
    /// depthOffset.
    pub depth_offset: u32,
    /// partIdx.
    pub part_idx: u32,
    /// `MttSplitMode[ x0 ][ y0 ][ mttDepth - 1 ]`; none under a quad split and at the root.
    pub parent_split: Option<Split>,
}

impl Node {
    /// A node of this size, at no depth.
    #[inline]
    pub fn new(x0: u32, y0: u32, cb_width: u32, cb_height: u32) -> Self {
        Self {
            x0,
            y0,
            cb_width,
            cb_height,
            cqt_depth: 0,
            mtt_depth: 0,
            depth_offset: 0,
            part_idx: 0,
            parent_split: None,
        }
    }

    /// The parts of a split in coding order, without those that begin outside the picture.
    #[inline]
    pub fn parts(&self, params: &Params, split: Split) -> [Option<Self>; 4] {
        let stepped = match split {
            Split::BtHor => params.beyond_bottom(self),
            Split::BtVer => params.beyond_right(self),
            _ => false,
        };
        let node = Self { depth_offset: self.depth_offset + u32::from(stepped), ..*self };
        let begun = |part: Self| params.begins_inside(&part).then_some(part);
        let slice = |part_idx, from, length| begun(node.slice(split, part_idx, from, length));
        match split {
            Split::Qt => [0, 1, 2, 3].map(|part_idx| begun(node.quarter(part_idx))),
            Split::BtHor | Split::BtVer => [slice(0, 0, 2), slice(1, 2, 2), None, None],
            Split::TtHor | Split::TtVer => [slice(0, 0, 1), slice(1, 1, 2), slice(2, 3, 1), None],
        }
    }

    /// A part of a quad split: left top, right top, left bottom or right bottom.
    #[inline]
    fn quarter(&self, part_idx: u32) -> Self {
        let (cb_width, cb_height) = (self.cb_width / 2, self.cb_height / 2);
        let x0 = self.x0 + part_idx % 2 * cb_width;
        let y0 = self.y0 + part_idx / 2 * cb_height;
        let cqt_depth = self.cqt_depth + 1;
        Self { cqt_depth, part_idx, ..Self::new(x0, y0, cb_width, cb_height) }
    }

    /// A part of another split; begin and length are in quarters of the side that is cut.
    #[inline]
    fn slice(&self, split: Split, part_idx: u32, from: u32, length: u32) -> Self {
        let mtt_depth = self.mtt_depth + 1;
        let part = Self { mtt_depth, part_idx, parent_split: Some(split), ..*self };
        if split.is_vertical() {
            let quarter = self.cb_width / 4;
            Self { x0: self.x0 + from * quarter, cb_width: length * quarter, ..part }
        } else {
            let quarter = self.cb_height / 4;
            Self { y0: self.y0 + from * quarter, cb_height: length * quarter, ..part }
        }
    }

    /// The row of this node as a coding unit.
    #[inline]
    pub fn row(&self) -> Row {
        Row {
            x0: self.x0 as u16,
            y0: self.y0 as u16,
            log2_cb_width: self.cb_width.trailing_zeros() as u8,
            log2_cb_height: self.cb_height.trailing_zeros() as u8,
            cqt_depth: self.cqt_depth as u8,
            mtt_depth: self.mtt_depth as u8,
        }
    }
}
