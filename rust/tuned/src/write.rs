//! Rows to flags.
//!
//! A walk down the tree that asks the rows at each node how it was split. The node's own row means
//! a coding unit; a row of greater quad depth means a quad split; a node over an edge has one
//! direction only; and for all others [`Splits`] finds the split from below.

use std::cell::RefCell;

use h266::check::unit_root;
use h266::{stop, Allowed, Answer, Node, Params, Refusal, Settings, Split, MAX_ROWS};

use crate::block::Block;
use crate::join::Splits;
use crate::open::{Inner, Open};

/// More than the flags of any unit: a split has four at most, a row one, an edge node one.
const MAX_FLAGS: usize = 8 * MAX_ROWS;

thread_local! {
    /// Flags and splits wait here until the whole table is accepted. Kept, so that no call has to
    /// clear it.
    static SCRATCH: RefCell<Scratch> = const { RefCell::new(Scratch::new()) };
}

struct Scratch {
    flags: [u8; MAX_FLAGS],
    splits: Splits,
}

impl Scratch {
    const fn new() -> Self {
        Self { flags: [0; MAX_FLAGS], splits: Splits::new() }
    }
}

/// A table of rows, each read as a number.
#[derive(Clone, Copy)]
pub(crate) struct Table<'a>(&'a [[u8; 8]]);

impl Table<'_> {
    #[inline(always)]
    pub(crate) fn row(&self, at: usize) -> Option<Block> {
        self.0.get(at).map(|row| Block(u64::from_le_bytes(*row)))
    }
}

/// Writes the flags that give exactly these rows.
///
/// Accepted: `(0, flags written)`. Refused: a number from 1 to 10, 15, 27, 28, 16 or 17 and its
/// place; where a table stops being a tree, `h266` says.
pub fn write_flags(settings: &Settings, address: u64, rows: &[u8], flags: &mut [u8]) -> Answer {
    let result = unit_root(settings, address)
        .and_then(|(params, root)| write_tree(&params, root, rows, flags));
    Refusal::answer(result)
}

/// Writes the tree under a root: refusals 15, 27, 28, 16 and 17.
fn write_tree(
    params: &Params,
    root: Node,
    rows: &[u8],
    flags: &mut [u8],
) -> Result<usize, Refusal> {
    let (rows, rest) = rows.as_chunks::<8>();
    if !rest.is_empty() {
        return Err(Refusal::new(15, rows.len()));
    }
    if rows.len() > MAX_ROWS {
        return Err(stop(params, &root, rows));
    }
    SCRATCH.with_borrow_mut(|scratch| {
        let Scratch { flags: found, splits } = scratch;
        let mut writer = Writer {
            params,
            inner: Inner::new(params),
            table: Table(rows),
            at: 0,
            flags: found,
            count: 0,
            splits,
        };
        let walked = writer.coding_tree(&root);
        let (at, count) = (writer.at, writer.count);
        if walked.is_none() || at < rows.len() {
            return Err(stop(params, &root, rows));
        }
        let lent = flags.get_mut(..count).ok_or(Refusal::new(17, count))?;
        lent.copy_from_slice(&found[..count]);
        Ok(count)
    })
}

/// The state of one walk. Its methods give nothing where no flags give the rows.
struct Writer<'a> {
    params: &'a Params,
    inner: Inner<'a>,
    table: Table<'a>,
    at: usize,
    flags: &'a mut [u8; MAX_FLAGS],
    count: usize,
    splits: &'a mut Splits,
}

impl Writer<'_> {
    /// Writes a flag where it is present.
    #[inline(always)]
    fn flag(&mut self, present: bool, value: bool) {
        self.flags[self.count] = u8::from(value);
        self.count += usize::from(present);
    }

    /// Any node that begins inside the picture.
    fn coding_tree(&mut self, node: &Node) -> Option<()> {
        if self.params.inside(node) {
            let usable = self.inner.enter(node);
            self.inner_tree(Block::of(node), usable)
        } else {
            self.edge_tree(node)
        }
    }

    /// A node over an edge: split in any case, and never into three.
    fn edge_tree(&mut self, node: &Node) -> Option<()> {
        let open = Open::from(Allowed::of(self.params, node));
        let quad = self.table.row(self.at)?.cqt_depth() != node.cqt_depth as u8;
        let vertical = !self.params.beyond_bottom(node);
        let split = if quad { Split::Qt } else { Split::mtt(vertical, true) };
        if quad {
            self.split_qt(open)?;
        } else {
            self.split_mtt(open, vertical, true)?;
        }
        for part in node.parts(self.params, split).iter().flatten() {
            self.coding_tree(part)?;
        }
        Some(())
    }

    /// A node inside the picture, under quad splits and edge cuts only.
    fn inner_tree(&mut self, block: Block, usable: Open) -> Option<()> {
        let open = self.inner.open(block, usable);
        let row = self.table.row(self.at)?;
        if row == block {
            self.coding_unit(open);
            return Some(());
        }
        self.flag(true, true);
        if row.cqt_depth() == block.cqt_depth() {
            self.splits.find(self.table, self.at, block.mtt_depth())?;
            return self.mtt_parts(block, open);
        }
        self.split_qt(open)?;
        for part in block.quarters() {
            self.inner_tree(part, usable)?;
        }
        Some(())
    }

    /// A node under a split that the rows were joined for. Coding units are met here, so that only
    /// splits cost a call.
    #[inline(always)]
    fn mtt_tree(&mut self, block: Block, usable: Open) -> Option<()> {
        let open = self.inner.open(block, usable);
        if self.table.row(self.at)? == block {
            self.coding_unit(open);
            return Some(());
        }
        self.flag(true, true);
        self.mtt_parts(block, open)
    }

    /// Splits a node as the joined rows say.
    fn mtt_parts(&mut self, block: Block, open: Open) -> Option<()> {
        let split = self.splits.take()?;
        let vertical = split.is_vertical();
        self.split_mtt(open, vertical, split.is_binary())?;
        if split.is_binary() {
            let [first, second] = block.halves(vertical);
            let usable = self.inner.below_mtt(first);
            self.mtt_tree(first, usable)?;
            return self.mtt_tree(second, usable);
        }
        let [first, middle, last] = block.thirds(vertical);
        let usable = self.inner.below_mtt(first);
        self.mtt_tree(first, usable)?;
        self.mtt_tree(middle, usable.without_bt(vertical))?;
        self.mtt_tree(last, usable)
    }

    /// split_cu_flag of a coding unit.
    #[inline(always)]
    fn coding_unit(&mut self, open: Open) {
        self.flag(open.any(), false);
        self.at += 1;
    }

    /// The flags of a quad split after split_cu_flag, where it is open.
    #[inline(always)]
    fn split_qt(&mut self, open: Open) -> Option<()> {
        self.flag(open.mtt(), true);
        open.qt().then_some(())
    }

    /// The flags of another split after split_cu_flag, where it is open.
    #[inline(always)]
    fn split_mtt(&mut self, open: Open, vertical: bool, binary: bool) -> Option<()> {
        let (bt, tt) = open.along(vertical);
        self.flag(open.qt(), false);
        self.flag(open.hor() & open.ver(), vertical);
        self.flag(bt & tt, binary);
        (if binary { bt } else { tt }).then_some(())
    }
}
