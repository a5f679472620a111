//! The picture session: units in order.

use crate::check::due_root;
use crate::read::read_tree;
use crate::{Answer, Params, Refusal, Settings};

/// Opens a session: `(0, 0)`, and the address due is then 0; or a number from 1 to 9.
pub fn open(settings: &Settings, due: &mut u64) -> Answer {
    match Params::new(settings) {
        Ok(_) => {
            *due = 0;
            (0, 0)
        }
        Err(number) => (number, 0),
    }
}

/// How many units the picture has: `(0, units)`, or a number from 1 to 9.
pub fn unit_count(settings: &Settings) -> Answer {
    match Params::new(settings) {
        Ok(params) => (0, params.unit_count()),
        Err(number) => (number, 0),
    }
}

/// Reads the unit that is due and moves `due` on.
///
/// Accepted: `(0, rows written)`. Refused: 22, 20, 21 or a number from 11 to 14, and its place.
pub fn unit(
    settings: &Settings,
    due: &mut u64,
    address: u64,
    flags: &[u8],
    rows: &mut [u8],
) -> Answer {
    let result = due_root(settings, *due, address)
        .and_then(|(params, root)| read_tree(&params, &root, flags, rows));
    *due += u64::from(result.is_ok());
    Refusal::answer(result)
}
