//! What breaks a table.

use h266::Row;
use samples::Rng;

/// A row, counted from the last one, and what is wrong there.
#[derive(Clone, Copy, Debug)]
pub struct Fault {
    from_last: usize,
    kind: Kind,
}

#[derive(Clone, Copy, Debug)]
enum Kind {
    /// The table ends before the row.
    Cut,
    /// The row has another height.
    Height,
    /// The row has this MTT depth.
    Depth(u8),
}

impl Fault {
    /// A fault of the last row.
    pub const LAST: Self = Self { from_last: 0, kind: Kind::Height };

    /// A fault near the end, now and then anywhere.
    pub fn draw(rng: &mut Rng) -> Self {
        let from_last = rng.below(rng.clone().pick(&[1, 8, 64, 1_024]));
        let kind = match rng.below(4) {
            0 => Kind::Cut,
            1 => Kind::Height,
            2 => Kind::Depth(255),
            _ => Kind::Depth(rng.below(11) as u8),
        };
        Self { from_last, kind }
    }

    /// Breaks a table; one without such a row stays as it is.
    pub fn put(self, rows: &mut Vec<Row>) {
        let Some(at) = rows.len().checked_sub(1 + self.from_last) else { return };
        match self.kind {
            Kind::Cut => rows.truncate(at),
            Kind::Height => rows[at].log2_cb_height += 1,
            Kind::Depth(depth) => rows[at].mtt_depth = depth,
        }
    }
}
