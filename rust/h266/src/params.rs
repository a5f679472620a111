//! The settings, checked, under the names that the standard gives them.

use crate::{Node, Settings};

/// The greatest picture side.
const MAX_PICTURE_SIDE: u32 = 16_384;

/// Checked settings of a picture.
#[derive(Clone, Copy, Debug)]
pub struct Params {
    /// CtbSizeY.
    pub ctb_size_y: u32,
    /// MinCbSizeY, which is also MinBtSizeY and MinTtSizeY.
    pub min_cb_size_y: u32,
    /// MinQtSizeY.
    pub min_qt_size_y: u32,
    /// MaxMttDepthY.
    pub max_mtt_depth_y: u32,
    /// MaxBtSizeY.
    pub max_bt_size_y: u32,
    /// MaxTtSizeY.
    pub max_tt_size_y: u32,
    /// pps_pic_width_in_luma_samples.
    pub pic_width: u32,
    /// pps_pic_height_in_luma_samples.
    pub pic_height: u32,
}

/// Is this a power of two from `least` to `most`?
#[inline]
fn is_side(value: u32, least: u32, most: u32) -> bool {
    value.is_power_of_two() && value >= least && value <= most
}

/// May a picture side have this length?
#[inline]
fn is_picture_side(value: u32, step: u32) -> bool {
    value != 0 && value <= MAX_PICTURE_SIDE && value & (step - 1) == 0
}

impl Params {
    /// Checks the settings; the error is the refusal's number, 1 to 9.
    #[inline]
    pub fn new(settings: &Settings) -> Result<Self, u64> {
        let [ctu, min_cb, min_qt, max_mtt, max_bt, max_tt, width, height] = *settings;
        let params = Self {
            ctb_size_y: ctu,
            min_cb_size_y: min_cb,
            min_qt_size_y: min_qt,
            max_mtt_depth_y: max_mtt,
            max_bt_size_y: max_bt,
            max_tt_size_y: max_tt,
            pic_width: width,
            pic_height: height,
        };
        params.check_sides()?;
        params.check_picture()?;
        Ok(params)
    }

    /// Refusals 1 to 6: the tree's sides and depth.
    #[inline]
    fn check_sides(&self) -> Result<(), u64> {
        if !is_side(self.ctb_size_y, 32, 128) {
            return Err(1);
        }
        let most = self.ctb_size_y.min(64);
        if !is_side(self.min_cb_size_y, 4, most) {
            return Err(2);
        }
        if !is_side(self.min_qt_size_y, self.min_cb_size_y, most) {
            return Err(3);
        }
        let halvings = self.ctb_size_y.ilog2() - self.min_cb_size_y.ilog2();
        if self.max_mtt_depth_y > 2 * halvings {
            return Err(4);
        }
        if !is_side(self.max_bt_size_y, self.min_qt_size_y, self.ctb_size_y) {
            return Err(5);
        }
        if !is_side(self.max_tt_size_y, self.min_qt_size_y, most) {
            return Err(6);
        }
        Ok(())
    }

    /// Refusals 7 to 9: the picture's sides.
    #[inline]
    fn check_picture(&self) -> Result<(), u64> {
        let step = self.min_cb_size_y.max(8);
        if !is_picture_side(self.pic_width, step) {
            return Err(7);
        }
        if !is_picture_side(self.pic_height, step) {
            return Err(8);
        }
        let off_grid = (self.pic_width | self.pic_height) & (self.min_qt_size_y - 1) != 0;
        if self.max_mtt_depth_y == 0 && off_grid {
            return Err(9);
        }
        Ok(())
    }

    /// Units from the left to the right edge.
    #[inline]
    fn units_across(&self) -> u32 {
        (self.pic_width + self.ctb_size_y - 1) >> self.ctb_size_y.ilog2()
    }

    /// Units from the top to the bottom edge.
    #[inline]
    fn units_down(&self) -> u32 {
        (self.pic_height + self.ctb_size_y - 1) >> self.ctb_size_y.ilog2()
    }

    /// PicSizeInCtbsY.
    #[inline]
    pub fn unit_count(&self) -> u64 {
        u64::from(self.units_across() * self.units_down())
    }

    /// The root of a unit's tree, if the picture has such a unit.
    #[inline]
    pub fn root(&self, address: u64) -> Option<Node> {
        if address >= self.unit_count() {
            return None;
        }
        // Below the unit count, so it fits.
        let address = address as u32;
        let across = self.units_across();
        let x0 = address % across * self.ctb_size_y;
        let y0 = address / across * self.ctb_size_y;
        Some(Node::new(x0, y0, self.ctb_size_y, self.ctb_size_y))
    }

    /// Does the node reach over the right edge?
    #[inline]
    pub fn beyond_right(&self, node: &Node) -> bool {
        node.x0 + node.cb_width > self.pic_width
    }

    /// Does the node reach over the bottom edge?
    #[inline]
    pub fn beyond_bottom(&self, node: &Node) -> bool {
        node.y0 + node.cb_height > self.pic_height
    }

    /// Does the whole node lie inside the picture?
    #[inline]
    pub fn inside(&self, node: &Node) -> bool {
        !self.beyond_right(node) && !self.beyond_bottom(node)
    }

    /// Does the node begin inside the picture?
    #[inline]
    pub fn begins_inside(&self, node: &Node) -> bool {
        node.x0 < self.pic_width && node.y0 < self.pic_height
    }
}
