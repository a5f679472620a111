//! The settings, checked, under the names that the standard gives them.

use crate::{Node, Refusal, Settings};

/// The greatest picture side.
const MAX_PICTURE_SIDE: u32 = 16_384;

/// Checked settings of a picture.
#[derive(Clone, Copy, Debug)]
pub struct Params {
    /// CtbLog2SizeY.
    pub ctb_log2_size_y: u32,
    /// MinCbLog2SizeY.
    pub min_cb_log2_size_y: u32,
    /// pic_width_in_luma_samples.
    pub pic_width: u32,
    /// pic_height_in_luma_samples.
    pub pic_height: u32,
}

impl Params {
    /// Checks the settings.
    ///
    /// # Errors
    ///
    /// Refusals 34, 35, 7 and 8.
    #[inline]
    pub fn new(settings: &Settings) -> Result<Self, Refusal> {
        let [ctb_size_y, min_cb_size_y, pic_width, pic_height] = *settings;
        if ![16, 32, 64].contains(&ctb_size_y) {
            return Err(Refusal::plain(34));
        }
        if !min_cb_size_y.is_power_of_two() || !(8..=ctb_size_y).contains(&min_cb_size_y) {
            return Err(Refusal::plain(35));
        }
        let is_picture_side = |side: u32| {
            (1..=MAX_PICTURE_SIDE).contains(&side) && side.is_multiple_of(min_cb_size_y)
        };
        if !is_picture_side(pic_width) {
            return Err(Refusal::plain(7));
        }
        if !is_picture_side(pic_height) {
            return Err(Refusal::plain(8));
        }
        let (ctb_log2_size_y, min_cb_log2_size_y) = (ctb_size_y.ilog2(), min_cb_size_y.ilog2());
        Ok(Self { ctb_log2_size_y, min_cb_log2_size_y, pic_width, pic_height })
    }

    /// PicWidthInCtbsY.
    #[inline]
    fn pic_width_in_ctbs(&self) -> u32 {
        self.pic_width.div_ceil(1 << self.ctb_log2_size_y)
    }

    /// PicSizeInCtbsY.
    #[inline]
    pub fn unit_count(&self) -> u64 {
        let height = self.pic_height.div_ceil(1 << self.ctb_log2_size_y);
        u64::from(self.pic_width_in_ctbs() * height)
    }

    /// The root of a unit's tree, if the picture has such a unit.
    #[inline]
    pub fn root(&self, address: u64) -> Option<Node> {
        if address >= self.unit_count() {
            return None;
        }
        // Below the unit count, so it fits.
        let (address, across) = (address as u32, self.pic_width_in_ctbs());
        let x0 = (address % across) << self.ctb_log2_size_y;
        let y0 = (address / across) << self.ctb_log2_size_y;
        Some(Node { x0, y0, log2_cb_size: self.ctb_log2_size_y, cqt_depth: 0 })
    }

    /// Does the whole node lie inside the picture?
    #[inline]
    pub fn inside(&self, node: &Node) -> bool {
        let size = 1 << node.log2_cb_size;
        node.x0 + size <= self.pic_width && node.y0 + size <= self.pic_height
    }

    /// The checked settings and the root of this unit's tree.
    ///
    /// # Errors
    ///
    /// Refusals 34, 35, 7, 8 and 10.
    #[inline]
    pub(crate) fn of_unit(settings: &Settings, address: u64) -> Result<(Self, Node), Refusal> {
        let params = Self::new(settings)?;
        let root = params.root(address).ok_or(Refusal::plain(10))?;
        Ok((params, root))
    }
}
