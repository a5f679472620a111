//! Flags to rows: the coding tree syntax of clause 7.3.11.4.

use std::cell::RefCell;

use crate::check::unit_root;
use crate::{Allowed, Answer, Node, Params, Refusal, Row, Settings, Split, MAX_ROWS};

thread_local! {
    /// Rows wait here until the whole unit is accepted. Kept, so that no call has to clear it.
    static ROWS: RefCell<[Row; MAX_ROWS]> = const { RefCell::new([Row::ZERO; MAX_ROWS]) };
}

/// Reads one unit's flags and writes its rows.
///
/// Accepted: `(0, rows written)`. Refused: a number from 1 to 14 and its place.
pub fn read_unit(settings: &Settings, address: u64, flags: &[u8], rows: &mut [u8]) -> Answer {
    let result = unit_root(settings, address)
        .and_then(|(params, root)| read_tree(&params, &root, flags, rows));
    Refusal::answer(result)
}

/// Reads the tree under a root: refusals 11 to 14.
pub(crate) fn read_tree(
    params: &Params,
    root: &Node,
    flags: &[u8],
    rows: &mut [u8],
) -> Result<usize, Refusal> {
    ROWS.with_borrow_mut(|scratch| {
        let mut reader = Reader { params, flags, pos: 0, rows: scratch, count: 0 };
        reader.coding_tree(root)?;
        let Reader { pos, count, .. } = reader;
        if pos < flags.len() {
            return Err(Refusal::new(13, pos));
        }
        if rows.len() < 8 * count {
            return Err(Refusal::new(14, count));
        }
        for (bytes, row) in rows.chunks_exact_mut(8).zip(&scratch[..count]) {
            bytes.copy_from_slice(&row.to_bytes());
        }
        Ok(count)
    })
}

/// The state of one walk.
struct Reader<'a> {
    params: &'a Params,
    flags: &'a [u8],
    pos: usize,
    rows: &'a mut [Row; MAX_ROWS],
    count: usize,
}

impl Reader<'_> {
    /// coding_tree( ) for a node that begins inside the picture.
    fn coding_tree(&mut self, node: &Node) -> Result<(), Refusal> {
        let allowed = Allowed::of(self.params, node);
        let inside = self.params.inside(node);
        let split_cu_flag = self.flag(inside && allowed.any(), !inside)?;
        if !split_cu_flag {
            self.coding_unit(node);
            return Ok(());
        }
        let split = self.split(&allowed)?;
        for part in node.parts(self.params, split).iter().flatten() {
            self.coding_tree(part)?;
        }
        Ok(())
    }

    /// The flags after split_cu_flag, and the split that they name.
    #[inline]
    fn split(&mut self, allowed: &Allowed) -> Result<Split, Refusal> {
        let split_qt_flag = self.flag(allowed.qt && allowed.mtt(), allowed.qt)?;
        if split_qt_flag {
            return Ok(Split::Qt);
        }
        let vertical = self.flag(allowed.hor() && allowed.ver(), !allowed.hor())?;
        let (bt, tt) = allowed.along(vertical);
        let binary = self.flag(bt && tt, bt)?;
        Ok(Split::mtt(vertical, binary))
    }

    /// Reads a flag where it is present, else takes the inferred value.
    #[inline]
    fn flag(&mut self, present: bool, inferred: bool) -> Result<bool, Refusal> {
        if !present {
            return Ok(inferred);
        }
        match self.flags.get(self.pos) {
            Some(&byte) if byte <= 1 => {
                self.pos += 1;
                Ok(byte == 1)
            }
            Some(_) => Err(Refusal::new(12, self.pos)),
            None => Err(Refusal::new(11, self.pos)),
        }
    }

    /// coding_unit( ): one row.
    #[inline]
    fn coding_unit(&mut self, node: &Node) {
        self.rows[self.count] = node.row();
        self.count += 1;
    }
}
