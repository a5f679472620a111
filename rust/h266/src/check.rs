//! What is checked before a tree is walked.

use crate::{Node, Params, Refusal, Settings};

/// The root of this unit's tree. Refusals 1 to 10.
#[inline]
pub fn unit_root(settings: &Settings, address: u64) -> Result<(Params, Node), Refusal> {
    let params = Params::new(settings).map_err(|number| Refusal::new(number, 0))?;
    let root = params.root(address).ok_or(Refusal::new(10, 0))?;
    Ok((params, root))
}

/// The root of the tree of a session's unit, where that unit is due. Refusals 22, 20 and 21.
#[inline]
pub fn due_root(settings: &Settings, due: u64, address: u64) -> Result<(Params, Node), Refusal> {
    let params = Params::new(settings).map_err(|_| Refusal::new(22, 0))?;
    if due > params.unit_count() {
        return Err(Refusal::new(22, 0));
    }
    let root = params.root(due).ok_or(Refusal::new(20, 0))?;
    if address != due {
        return Err(Refusal { number: 21, place: due });
    }
    Ok((params, root))
}
