//! The picture session: units in order.

use crate::read::read_tree;
use crate::refusal::answer;
use crate::{Answer, Node, Params, Refusal, Settings};

/// Opens a session: `(0, 0)`, and the address due is then 0; or 34, 35, 7 or 8.
pub fn open(settings: &Settings, due: &mut u64) -> Answer {
    answer(Params::new(settings).map(|_| {
        *due = 0;
        0
    }))
}

/// How many units the picture has: `(0, units)`, or 34, 35, 7 or 8.
pub fn unit_count(settings: &Settings) -> Answer {
    answer(Params::new(settings).map(|params| params.unit_count() as usize))
}

/// Reads the unit that is due and moves `due` on.
///
/// Accepted: `(0, rows written)`. Refused: 22, 20, 21 or a number from 11 to 14, and its place.
pub fn unit(
    settings: &Settings,
    due: &mut u64,
    address: u64,
    flags: &[u8],
    rows: &mut [u8],
) -> Answer {
    let read = due_root(settings, *due, address)
        .and_then(|(params, root)| read_tree(&params, &root, flags, rows));
    if read.is_ok() {
        *due += 1;
    }
    answer(read)
}

/// The root of the tree of the unit that is due, where it is the one asked for: 22, 20 and 21.
fn due_root(settings: &Settings, due: u64, address: u64) -> Result<(Params, Node), Refusal> {
    let params = Params::new(settings).map_err(|_| Refusal::plain(22))?;
    if due > params.unit_count() {
        return Err(Refusal::plain(22));
    }
    let root = params.root(due).ok_or(Refusal::plain(20))?;
    if address != due {
        return Err(Refusal { number: 21, place: due });
    }
    Ok((params, root))
}
