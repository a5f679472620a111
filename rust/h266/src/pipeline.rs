//! Pipeline units: the squares, laid side by side from (0, 0), in which the board holds samples.

use crate::{Row, Settings};

/// The side of the pipeline units: the smaller of 64 and the CTU side.
pub fn pipeline_side(settings: &Settings) -> u32 {
    settings[0].min(64)
}

impl Row {
    /// How many pipeline units of this side have a sample of the row.
    pub fn pipeline_units(&self, side: u32) -> u32 {
        let touched = |start: u16, log2_length: u8| {
            let (first, end) = (u32::from(start), u32::from(start) + (1 << log2_length));
            end.div_ceil(side) - first / side
        };
        touched(self.x0, self.log2_cb_width) * touched(self.y0, self.log2_cb_height)
    }

    /// Does the row lie inside one pipeline unit, or consist of whole ones? It then has as many
    /// samples as the units together that have a sample of it.
    pub fn is_in_pipeline(&self, side: u32) -> bool {
        let units = self.pipeline_units(side);
        units == 1 || units * side * side == 1 << (self.log2_cb_width + self.log2_cb_height)
    }
}
