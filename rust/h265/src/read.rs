//! Flags to rows: coding_quadtree( ) of clause 7.3.8.4.

use crate::refusal::answer;
use crate::{Answer, Node, Params, Refusal, Settings, MAX_ROWS};

/// Reads one unit's flags and writes its rows.
///
/// Accepted: `(0, rows written)`. Refused: 34, 35, 7, 8, or a number from 10 to 14, and its place.
pub fn read_unit(settings: &Settings, address: u64, flags: &[u8], rows: &mut [u8]) -> Answer {
    let read = Params::of_unit(settings, address)
        .and_then(|(params, root)| read_tree(&params, &root, flags, rows));
    answer(read)
}

/// Reads the tree under a root: refusals 11 to 14.
pub(crate) fn read_tree(
    params: &Params,
    root: &Node,
    flags: &[u8],
    rows: &mut [u8],
) -> Result<usize, Refusal> {
    let mut reader = Reader { params, flags, pos: 0, rows: [[0; 8]; MAX_ROWS], count: 0 };
    let Node { x0, y0, log2_cb_size, cqt_depth } = *root;
    reader.coding_quadtree(x0, y0, log2_cb_size, cqt_depth)?;
    if reader.pos < flags.len() {
        return Err(Refusal::at(13, reader.pos));
    }
    let found = reader.rows[..reader.count].as_flattened();
    let lent = rows.get_mut(..found.len()).ok_or(Refusal::at(14, reader.count))?;
    lent.copy_from_slice(found);
    Ok(reader.count)
}

/// The state of one walk. Rows wait here until the whole unit is accepted.
struct Reader<'a> {
    params: &'a Params,
    flags: &'a [u8],
    pos: usize,
    rows: [[u8; 8]; MAX_ROWS],
    count: usize,
}

impl Reader<'_> {
    /// coding_quadtree( x0, y0, log2CbSize, cqtDepth ).
    fn coding_quadtree(
        &mut self,
        x0: u32,
        y0: u32,
        log2_cb_size: u32,
        cqt_depth: u32,
    ) -> Result<(), Refusal> {
        let node = Node { x0, y0, log2_cb_size, cqt_depth };
        let larger = log2_cb_size > self.params.min_cb_log2_size_y;
        let split_cu_flag =
            if self.params.inside(&node) && larger { self.split_cu_flag()? } else { larger };
        if !split_cu_flag {
            self.rows[self.count] = node.row();
            self.count += 1;
            return Ok(());
        }
        let (log2_cb_size, cqt_depth) = (log2_cb_size - 1, cqt_depth + 1);
        let (x1, y1) = (x0 + (1 << log2_cb_size), y0 + (1 << log2_cb_size));
        let Params { pic_width, pic_height, .. } = *self.params;
        self.coding_quadtree(x0, y0, log2_cb_size, cqt_depth)?;
        if x1 < pic_width {
            self.coding_quadtree(x1, y0, log2_cb_size, cqt_depth)?;
        }
        if y1 < pic_height {
            self.coding_quadtree(x0, y1, log2_cb_size, cqt_depth)?;
        }
        if x1 < pic_width && y1 < pic_height {
            self.coding_quadtree(x1, y1, log2_cb_size, cqt_depth)?;
        }
        Ok(())
    }

    /// Reads a flag that is present: refusals 11 and 12.
    #[inline]
    fn split_cu_flag(&mut self) -> Result<bool, Refusal> {
        match self.flags.get(self.pos) {
            None => Err(Refusal::at(11, self.pos)),
            Some(&flag @ (0 | 1)) => {
                self.pos += 1;
                Ok(flag == 1)
            }
            Some(_) => Err(Refusal::at(12, self.pos)),
        }
    }
}
