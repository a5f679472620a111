//! Calls without a clock, for counting instructions.

use crate::classes::{self, Class, Unit};
use crate::quads;
use crate::work::{Buffer, Call, Side, Way, Work};

/// Makes the calls that the arguments name, or nothing where they name none.
pub fn run(work: &str, class: &str, calls: &str) -> Option<()> {
    let calls: usize = calls.parse().ok()?;
    let (side, way) = work.split_once('-')?;
    let way = Way::ALL.into_iter().find(|one| one.name() == way)?;
    if let Some(class) = classes::all().into_iter().find(|one| one.name == class) {
        let side = Side::ALL.into_iter().find(|one| one.name() == side)?;
        run_on(&class, &Work::of(side, way)?, calls);
        return Some(());
    }
    let class = quads::classes().into_iter().find(|one| one.name == class)?;
    let (_, work) = quads::works(way)?.into_iter().find(|(name, _)| *name == side)?;
    run_on(&class, &work, calls);
    Some(())
}

fn run_on<S>(class: &Class<S>, work: &Work<S>, calls: usize) {
    let units: Vec<&Unit<S>> = class.units.iter().cycle().take(calls).collect();
    measured_calls(&units, &mut Buffer::new(work.room), work.call);
}

/// The function whose instructions are collected. It keeps its name, so it is never inlined.
#[inline(never)]
fn measured_calls<S>(units: &[&Unit<S>], buffer: &mut Buffer, call: Call<S>) {
    for unit in units {
        buffer.lend(call, unit);
    }
}
