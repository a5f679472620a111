//! Random calls on single units.

use colwythar::{max_flags_of_rows, MAX_FLAGS};
use samples::{damage, Rng};

use crate::{comparisons, pages, stops, Coding, Engine};

/// As much as the rows or flags of any unit need.
pub(crate) const ROOM: usize = 8_192;

/// A random unit of a picture, its flags, and what both directions take of room.
pub(crate) struct Unit<S> {
    pub(crate) settings: S,
    pub(crate) address: u64,
    pub(crate) flags: Vec<u8>,
    pub(crate) rows: Vec<u8>,
}

/// One round: a legal unit in both directions, then the same unit damaged in several ways.
pub fn round<S: Coding>(engine: &mut Engine<S>, rng: &mut Rng) {
    let settings = S::valid(rng);
    assert_eq!(engine.open(rng, &settings), 0);
    let address = rng.draw() % settings.unit_count();
    let flags = settings.any_flags(address, rng);
    let unit = legal(engine, rng, settings, address, flags);
    rooms(engine, rng, &unit);
    drawn_flags(engine, rng, &unit);
    damaged_flags(engine, rng, &unit);
    damaged_rows(engine, rng, &unit);
    lawless_rows(engine, rng, &unit);
    stops::around(engine, rng, &unit);
    comparisons::others(engine, rng, &unit);
    other_limits(engine, rng, &unit);
    no_such_unit(engine, rng, &unit);
    broken_settings(engine, rng, &unit);
    pages::far(engine, rng);
}

/// A unit with the flags of a tree, read and turned back on all sides.
pub(crate) fn legal<S: Coding>(
    engine: &mut Engine<S>,
    rng: &mut Rng,
    settings: S,
    address: u64,
    flags: Vec<u8>,
) -> Unit<S> {
    let read = engine.read(rng, &settings, address, &flags, ROOM);
    assert_eq!(read.number, 0, "a legal tree was refused: {settings:?} {address} {flags:?}");
    let rows = read.written;
    let back = engine.write(rng, &settings, address, &rows, ROOM);
    assert_eq!(back.written, flags, "the way back gave other flags: {settings:?} {address}");
    Unit { settings, address, flags, rows }
}

/// Every unit of a small picture with trees of every style, its flags and rows also damaged.
pub fn all_units<S: Coding>(engine: &mut Engine<S>, rng: &mut Rng, settings: S) {
    for address in 0..settings.unit_count() {
        for &style in S::STYLES {
            let flags = settings.flags(address, rng, style);
            let unit = legal(engine, rng, settings, address, flags);
            rooms(engine, rng, &unit);
            damaged_flags(engine, rng, &unit);
            damaged_rows(engine, rng, &unit);
            comparisons::others(engine, rng, &unit);
        }
    }
}

/// A length around the one needed.
pub(crate) fn room(rng: &mut Rng, needed: usize) -> usize {
    match rng.below(6) {
        0 => 0,
        1 => needed.saturating_sub(1),
        2 => needed,
        3 => needed + 1,
        4 => needed + rng.below(100),
        _ => rng.below(needed + 1),
    }
}

/// Buffers that are too short, exact, longer, or as long as is planned for so many rows.
fn rooms<S: Coding>(engine: &mut Engine<S>, rng: &mut Rng, unit: &Unit<S>) {
    let Unit { settings, address, flags, rows } = unit;
    let short = room(rng, rows.len());
    engine.read(rng, settings, *address, flags, short);
    let short = room(rng, flags.len());
    engine.write(rng, settings, *address, rows, short);
    pages::lengths(engine, rng, unit);
    let planned = max_flags_of_rows(rows.len() / 8);
    let back = engine.write(rng, settings, *address, rows, planned);
    assert_eq!(back.number, 0, "a planned buffer is refused: {settings:?} {address} {rows:?}");
}

/// A tree from flags drawn at random, which knows no rules: there are more of them than any unit
/// has, so they run over, and those before the place are the whole tree's.
fn drawn_flags<S: Coding>(engine: &mut Engine<S>, rng: &mut Rng, unit: &Unit<S>) {
    let Unit { settings, address, .. } = unit;
    let ones = rng.pick(&[10, 30, 50, 70, 90]);
    let drawn: Vec<u8> = (0..=MAX_FLAGS).map(|_| u8::from(rng.percent(ones))).collect();
    let over = engine.read(rng, settings, *address, &drawn, ROOM);
    assert_eq!(over.number, 13, "random flags do not run over: {settings:?} {address}");
    let flags = &drawn[..over.value as usize];
    let read = engine.read(rng, settings, *address, flags, ROOM);
    assert_eq!(read.number, 0, "a whole tree is refused: {settings:?} {address} {flags:?}");
    let back = engine.write(rng, settings, *address, &read.written, ROOM);
    assert_eq!(back.written, flags, "the way back gave other flags: {settings:?} {address}");
    comparisons::beside(engine, rng, settings, *address, &unit.rows, &read.written);
}

/// Flags that are changed, cut or extended; also with a short buffer, which is seen later.
fn damaged_flags<S: Coding>(engine: &mut Engine<S>, rng: &mut Rng, unit: &Unit<S>) {
    let mut flags = unit.flags.clone();
    for _ in 0..4 {
        damage::flags(rng, &mut flags);
        let room = if rng.percent(70) { ROOM } else { room(rng, unit.rows.len()) };
        engine.read(rng, &unit.settings, unit.address, &flags, room);
        if rng.percent(60) {
            flags.clone_from(&unit.flags);
        }
    }
}

/// Tables that are changed, cut or extended; also with a short buffer, which is seen later. Each is
/// compared with the one before it, of which the first is the unit's own.
fn damaged_rows<S: Coding>(engine: &mut Engine<S>, rng: &mut Rng, unit: &Unit<S>) {
    let mut rows = unit.rows.clone();
    for _ in 0..5 {
        let before = rows.clone();
        damage::rows(rng, &mut rows);
        comparisons::beside(engine, rng, &unit.settings, unit.address, &before, &rows);
        let room = if rng.percent(70) { ROOM } else { room(rng, unit.flags.len()) };
        pages::beside(engine, rng, &unit.settings, unit.address, &rows, room);
        if rng.percent(60) {
            rows.clone_from(&unit.rows);
        }
    }
}

/// Tables that look like a tree's, but break a rule somewhere.
fn lawless_rows<S: Coding>(engine: &mut Engine<S>, rng: &mut Rng, unit: &Unit<S>) {
    for _ in 0..3 {
        let rows = unit.settings.lawless_rows(unit.address, rng);
        pages::beside(engine, rng, &unit.settings, unit.address, &rows, ROOM);
        comparisons::beside(engine, rng, &unit.settings, unit.address, &unit.rows, &rows);
    }
}

/// The same flags and rows under settings with another limit.
fn other_limits<S: Coding>(engine: &mut Engine<S>, rng: &mut Rng, unit: &Unit<S>) {
    let settings = unit.settings.neighbour(rng);
    engine.read(rng, &settings, unit.address, &unit.flags, ROOM);
    pages::beside(engine, rng, &settings, unit.address, &unit.rows, ROOM);
    comparisons::beside(engine, rng, &settings, unit.address, &unit.rows, &unit.rows);
}

/// Addresses from the unit count on, and other units' addresses for this unit's data, which may be
/// damaged too.
fn no_such_unit<S: Coding>(engine: &mut Engine<S>, rng: &mut Rng, unit: &Unit<S>) {
    let count = unit.settings.unit_count();
    let high = 1 << 32;
    let beyond = rng.pick(&[count, count + 1, count + high, unit.address + high, u64::MAX]);
    let other = rng.draw() % count;
    let (flags, rows) = maybe_damaged(rng, unit);
    for address in [beyond, other] {
        engine.read(rng, &unit.settings, address, &flags, ROOM);
        pages::beside(engine, rng, &unit.settings, address, &rows, ROOM);
        comparisons::beside(engine, rng, &unit.settings, address, &unit.rows, &rows);
    }
}

/// The unit's flags and rows, damaged or not.
fn maybe_damaged<S>(rng: &mut Rng, unit: &Unit<S>) -> (Vec<u8>, Vec<u8>) {
    let (mut flags, mut rows) = (unit.flags.clone(), unit.rows.clone());
    if rng.percent(50) {
        damage::flags(rng, &mut flags);
        damage::rows(rng, &mut rows);
    }
    (flags, rows)
}

/// Settings for each refusal, with data that may be damaged too, which is seen later.
fn broken_settings<S: Coding>(engine: &mut Engine<S>, rng: &mut Rng, unit: &Unit<S>) {
    let settings = S::invalid(rng);
    let (flags, rows) = maybe_damaged(rng, unit);
    let address = rng.pick(&[0, unit.address, u64::MAX]);
    engine.open(rng, &settings);
    let lent = room(rng, rows.len());
    engine.read(rng, &settings, address, &flags, lent);
    let lent = room(rng, flags.len());
    pages::beside(engine, rng, &settings, address, &rows, lent);
    comparisons::beside(engine, rng, &settings, address, &rows, &unit.rows);
}
