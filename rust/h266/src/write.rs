//! Rows to flags: the coding tree syntax again, with the rows asked at each node how it was split.
//!
//! The node's own row means a coding unit; a row of another quad depth means a quad split; a node
//! over an edge has one direction only; and for all others [`Splits`] finds the split from below.

use std::cell::RefCell;

use crate::check::unit_root;
use crate::join::Splits;
use crate::{stop, Allowed, Answer, Node, Params, Refusal, Row, Settings, Split, MAX_ROWS};

/// More than the flags of any unit: a split has four at most, a row one, an edge node one.
pub(crate) const MAX_FLAGS: usize = 8 * MAX_ROWS;

thread_local! {
    /// Flags and splits wait here until the whole table is accepted. Kept, so that no call has to
    /// clear it.
    static SCRATCH: RefCell<Scratch> = const { RefCell::new(Scratch::new()) };
}

struct Scratch {
    flags: [u8; MAX_FLAGS],
    splits: Splits,
}

impl Scratch {
    const fn new() -> Self {
        Self { flags: [0; MAX_FLAGS], splits: Splits::new() }
    }
}

/// Writes the flags that give exactly these rows.
///
/// Accepted: `(0, flags written)`. Refused: a number from 1 to 10, 15, 27, 28, 16 or 17 and its
/// place.
pub fn write_flags(settings: &Settings, address: u64, rows: &[u8], flags: &mut [u8]) -> Answer {
    let result = unit_root(settings, address)
        .and_then(|(params, root)| write_tree(&params, &root, rows, flags));
    Refusal::answer(result)
}

/// Writes the tree under a root: refusals 15, 27, 28, 16 and 17.
fn write_tree(
    params: &Params,
    root: &Node,
    rows: &[u8],
    flags: &mut [u8],
) -> Result<usize, Refusal> {
    let (rows, rest) = rows.as_chunks::<8>();
    if !rest.is_empty() {
        return Err(Refusal::new(15, rows.len()));
    }
    if rows.len() > MAX_ROWS {
        return Err(stop(params, root, rows));
    }
    SCRATCH.with_borrow_mut(|scratch| {
        let Scratch { flags: found, splits } = scratch;
        splits.clear();
        let mut writer = Writer { params, rows, flags: found, count: 0, splits };
        let walked = writer.coding_tree(root);
        let Writer { rows: left, count, .. } = writer;
        if walked.is_none() || !left.is_empty() {
            return Err(stop(params, root, rows));
        }
        let lent = flags.get_mut(..count).ok_or(Refusal::new(17, count))?;
        lent.copy_from_slice(&found[..count]);
        Ok(count)
    })
}

/// The state of one walk. Its methods give nothing where no flags give the rows.
struct Writer<'a> {
    params: &'a Params,
    /// The rows that are not yet met.
    rows: &'a [[u8; 8]],
    flags: &'a mut [u8; MAX_FLAGS],
    count: usize,
    splits: &'a mut Splits,
}

impl Writer<'_> {
    /// coding_tree( ) for a node that begins inside the picture.
    fn coding_tree(&mut self, node: &Node) -> Option<()> {
        let allowed = Allowed::of(self.params, node);
        let inside = self.params.inside(node);
        let (first, others) = self.rows.split_first()?;
        let row = Row::from_bytes(*first);
        let split_cu_flag = !inside || row != node.row();
        self.flag(inside && allowed.any(), split_cu_flag);
        if !split_cu_flag {
            self.rows = others;
            return Some(());
        }
        let split = self.split(node, &row)?;
        if !allowed.has(split) {
            return None;
        }
        self.split_flags(&allowed, split);
        for part in node.parts(self.params, split).iter().flatten() {
            self.coding_tree(part)?;
        }
        Some(())
    }

    /// How a node was split whose first row is this.
    #[inline]
    fn split(&mut self, node: &Node, row: &Row) -> Option<Split> {
        if u32::from(row.cqt_depth) != node.cqt_depth {
            return Some(Split::Qt);
        }
        if self.params.beyond_bottom(node) {
            return Some(Split::BtHor);
        }
        if self.params.beyond_right(node) {
            return Some(Split::BtVer);
        }
        self.splits.take(self.rows, node.mtt_depth as u8)
    }

    /// The flags after split_cu_flag.
    #[inline]
    fn split_flags(&mut self, allowed: &Allowed, split: Split) {
        self.flag(allowed.qt && allowed.mtt(), split == Split::Qt);
        if split != Split::Qt {
            let (bt, tt) = allowed.along(split.is_vertical());
            self.flag(allowed.hor() && allowed.ver(), split.is_vertical());
            self.flag(bt && tt, split.is_binary());
        }
    }

    /// Writes a flag where it is present.
    #[inline]
    fn flag(&mut self, present: bool, value: bool) {
        if present {
            self.flags[self.count] = u8::from(value);
            self.count += 1;
        }
    }
}
