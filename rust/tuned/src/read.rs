//! Flags to rows: the coding tree syntax of clause 7.3.11.4.

use std::cell::RefCell;

use h266::check::{due_root, unit_root};
use h266::{Allowed, Answer, Node, Params, Refusal, Settings, Split, MAX_ROWS};

use crate::block::Block;
use crate::open::{Inner, Open};

thread_local! {
    /// Rows wait here until the whole unit is accepted. Kept, so that no call has to clear it.
    static ROWS: RefCell<[u64; MAX_ROWS]> = const { RefCell::new([0; MAX_ROWS]) };
}

/// Reads one unit's flags and writes its rows.
///
/// Accepted: `(0, rows written)`. Refused: a number from 1 to 14 and its place.
pub fn read_unit(settings: &Settings, address: u64, flags: &[u8], rows: &mut [u8]) -> Answer {
    let result = unit_root(settings, address)
        .and_then(|(params, root)| read_tree(&params, &root, flags, rows));
    Refusal::answer(result)
}

/// Reads the unit of a session that is due and moves `due` on.
///
/// Accepted: `(0, rows written)`. Refused: 22, 20, 21 or a number from 11 to 14, and its place.
pub fn unit(
    settings: &Settings,
    due: &mut u64,
    address: u64,
    flags: &[u8],
    rows: &mut [u8],
) -> Answer {
    let result = due_root(settings, *due, address)
        .and_then(|(params, root)| read_tree(&params, &root, flags, rows));
    *due += u64::from(result.is_ok());
    Refusal::answer(result)
}

/// Reads the tree under a root: refusals 11 to 14.
fn read_tree(
    params: &Params,
    root: &Node,
    flags: &[u8],
    rows: &mut [u8],
) -> Result<usize, Refusal> {
    ROWS.with_borrow_mut(|scratch| {
        let mut reader =
            Reader { params, inner: Inner::new(params), flags, pos: 0, rows: scratch, count: 0 };
        let walked = reader.coding_tree(root);
        let (pos, count) = (reader.pos, reader.count);
        if walked.is_err() {
            return Err(Refusal::new(if pos == flags.len() { 11 } else { 12 }, pos));
        }
        if pos < flags.len() {
            return Err(Refusal::new(13, pos));
        }
        if rows.len() < 8 * count {
            return Err(Refusal::new(14, count));
        }
        for (bytes, row) in rows.chunks_exact_mut(8).zip(&scratch[..count]) {
            bytes.copy_from_slice(&row.to_le_bytes());
        }
        Ok(count)
    })
}

/// The walk met the end of the flags, or a byte that is none, at the reader's position.
struct Stop;

/// The state of one walk.
struct Reader<'a> {
    params: &'a Params,
    inner: Inner<'a>,
    flags: &'a [u8],
    pos: usize,
    rows: &'a mut [u64; MAX_ROWS],
    count: usize,
}

impl Reader<'_> {
    /// Reads a flag where it is present, else takes the inferred value.
    #[inline(always)]
    fn flag(&mut self, present: bool, inferred: bool) -> Result<bool, Stop> {
        let byte = self.flags.get(self.pos).copied().unwrap_or(u8::MAX);
        if present & (byte > 1) {
            return Err(Stop);
        }
        self.pos += usize::from(present);
        Ok(if present { byte == 1 } else { inferred })
    }

    /// coding_tree( ) for any node that begins inside the picture.
    fn coding_tree(&mut self, node: &Node) -> Result<(), Stop> {
        if self.params.inside(node) {
            let usable = self.inner.enter(node);
            self.inner_tree(Block::of(node), usable)
        } else {
            self.edge_tree(node)
        }
    }

    /// coding_tree( ) over an edge, where split_cu_flag is inferred to be 1.
    fn edge_tree(&mut self, node: &Node) -> Result<(), Stop> {
        let open = Open::from(Allowed::of(self.params, node));
        let split = if self.split_qt_flag(open)? {
            Split::Qt
        } else {
            let (vertical, binary) = self.mtt_flags(open)?;
            Split::mtt(vertical, binary)
        };
        for part in node.parts(self.params, split).iter().flatten() {
            self.coding_tree(part)?;
        }
        Ok(())
    }

    /// coding_tree( ) inside the picture; so are all nodes below. Coding units are met here, so
    /// that only splits cost a call.
    #[inline(always)]
    fn inner_tree(&mut self, block: Block, usable: Open) -> Result<(), Stop> {
        let open = self.inner.open(block, usable);
        let split_cu_flag = self.flag(open.any(), false)?;
        if split_cu_flag {
            return self.inner_split(block, open, usable);
        }
        self.rows[self.count] = block.0;
        self.count += 1;
        Ok(())
    }

    /// The parts of a node inside the picture.
    fn inner_split(&mut self, block: Block, open: Open, usable: Open) -> Result<(), Stop> {
        if self.split_qt_flag(open)? {
            for part in block.quarters() {
                self.inner_tree(part, usable)?;
            }
            return Ok(());
        }
        let (vertical, binary) = self.mtt_flags(open)?;
        if binary {
            let [first, second] = block.halves(vertical);
            let usable = self.inner.below_mtt(first);
            self.inner_tree(first, usable)?;
            return self.inner_tree(second, usable);
        }
        let [first, middle, last] = block.thirds(vertical);
        let usable = self.inner.below_mtt(first);
        self.inner_tree(first, usable)?;
        self.inner_tree(middle, usable.without_bt(vertical))?;
        self.inner_tree(last, usable)
    }

    /// split_qt_flag of a split node.
    #[inline(always)]
    fn split_qt_flag(&mut self, open: Open) -> Result<bool, Stop> {
        self.flag(open.qt() & open.mtt(), open.qt())
    }

    /// mtt_split_cu_vertical_flag and mtt_split_cu_binary_flag.
    #[inline(always)]
    fn mtt_flags(&mut self, open: Open) -> Result<(bool, bool), Stop> {
        let vertical = self.flag(open.hor() & open.ver(), !open.hor())?;
        let (bt, tt) = open.along(vertical);
        let binary = self.flag(bt & tt, bt)?;
        Ok((vertical, binary))
    }
}
