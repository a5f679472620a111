//! Whole pictures through a session, with refused calls in between.

use samples::{damage, Rng};

use crate::calls::ROOM;
use crate::engine::assert_in_order;
use crate::{Coding, Engine, UnitCall};

/// The most units of a picture here.
const MOST_UNITS: u64 = 40;

/// Reads one random picture, and tries forged sessions of it.
pub fn picture<S: Coding>(engine: &mut Engine<S>, rng: &mut Rng) {
    let settings = small_picture(rng);
    whole(engine, rng, settings);
    forged(engine, rng, &settings);
}

/// Reads a picture to its end, and goes on after it.
pub fn whole<S: Coding>(engine: &mut Engine<S>, rng: &mut Rng, settings: S) {
    let count = settings.unit_count();
    assert_eq!(engine.open(rng, &settings), 0);
    let mut due = 0;
    let mut joined = Vec::new();
    while due < count {
        let call = legal(rng, &settings, due);
        if rng.percent(50) {
            let refused = disturbed(rng, &call, count);
            let outcome = engine.unit(rng, &settings, &mut due, &refused);
            joined.extend(outcome.written);
        }
        if due < count && call.address == due {
            let outcome = engine.unit(rng, &settings, &mut due, &call);
            assert_eq!(outcome.number, 0, "a legal unit was refused: {settings:?} {call:?}");
            joined.extend(outcome.written);
        }
    }
    assert_covered(&settings, &joined);
    assert_in_order(&settings, &joined);
    after_the_end(engine, rng, &settings, due);
}

/// Settings of a picture that is read quickly.
pub(crate) fn small_picture<S: Coding>(rng: &mut Rng) -> S {
    loop {
        let settings = S::valid(rng);
        if settings.unit_count() <= MOST_UNITS {
            return settings;
        }
    }
}

/// A call that has to be accepted when its address is due.
pub(crate) fn legal<S: Coding>(rng: &mut Rng, settings: &S, address: u64) -> UnitCall {
    let flags = settings.any_flags(address, rng);
    UnitCall { address, flags, room: ROOM }
}

/// The same call with something wrong; by chance it may still be legal.
pub(crate) fn disturbed(rng: &mut Rng, call: &UnitCall, count: u64) -> UnitCall {
    let mut call = call.clone();
    match rng.below(4) {
        0 => call.address = rng.pick(&[0, call.address + 1, count, count + 1, u64::MAX]),
        1 => call.room = rng.below(8 * 4),
        _ => damage::flags(rng, &mut call.flags),
    }
    call
}

/// No call is accepted once the picture is complete.
fn after_the_end<S: Coding>(engine: &mut Engine<S>, rng: &mut Rng, settings: &S, count: u64) {
    let mut due = count;
    for address in [count, 0, count - 1, u64::MAX] {
        let call = UnitCall { address, flags: vec![0; rng.below(3)], room: rng.below(64) };
        let outcome = engine.unit(rng, settings, &mut due, &call);
        assert_eq!(outcome.number, 20);
    }
}

/// Sessions that no opening gave: an address past the end, or broken settings.
fn forged<S: Coding>(engine: &mut Engine<S>, rng: &mut Rng, settings: &S) {
    let count = settings.unit_count();
    let call = legal(rng, settings, 0);
    for mut due in [count + 1, count + 2, 1 << 32, u64::MAX] {
        let address = rng.pick(&[due, 0, count]);
        let call = UnitCall { address, ..call.clone() };
        assert_eq!(engine.unit(rng, settings, &mut due, &call).number, 22);
    }
    let broken = S::invalid(rng);
    let mut due = rng.pick(&[0, 1, count, u64::MAX]);
    let call = UnitCall { address: due, ..call };
    if engine.open(rng, &broken) != 0 {
        assert_eq!(engine.unit(rng, &broken, &mut due, &call).number, 22);
    }
    let mut due = rng.draw() % count;
    let call = legal(rng, settings, due);
    assert_eq!(engine.unit(rng, settings, &mut due, &call).number, 0);
}

/// Every sample of the picture lies in exactly one row of the joined table.
fn assert_covered<S: Coding>(settings: &S, joined: &[u8]) {
    let (width, height) = settings.picture();
    let (width, height) = (width as usize / 4, height as usize / 4);
    let mut times = vec![0u8; width * height];
    for row in colwythar::rows(joined) {
        let (left, top) = (usize::from(row.x) / 4, usize::from(row.y) / 4);
        let (across, down) = (row.width() as usize / 4, row.height() as usize / 4);
        for y in top..top + down {
            let line = &mut times[y * width..][left..left + across];
            line.iter_mut().for_each(|times| *times += 1);
        }
    }
    assert!(times.iter().all(|&times| times == 1), "{settings:?} is not covered once");
}
