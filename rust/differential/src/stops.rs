//! Tables that no tree gives: where they stop being one.

use samples::{broken, Rng};

use crate::calls::{legal, Unit, ROOM};
use crate::{comparisons, pages, Coding, Engine, Outcome};

/// More rows than any unit has.
const MANY: usize = 1_100;

/// The table of a legal unit, cut and broken in several ways. As far as the answer follows from the
/// table alone, it is asserted here; all sides agree on the rest.
pub(crate) fn around<S: Coding>(engine: &mut Engine<S>, rng: &mut Rng, unit: &Unit<S>) {
    let row = rng.below(unit.rows.len() / 8);
    cut(engine, rng, unit, row);
    gone_on(engine, rng, unit);
    changed(engine, rng, unit, row);
    moved(engine, rng, unit, row);
    joined(engine, rng, unit, row);
    elsewhere(engine, rng, unit);
}

/// What all sides answer to rows of this unit, which are also compared with its own.
fn answer<S: Coding>(
    engine: &mut Engine<S>,
    rng: &mut Rng,
    unit: &Unit<S>,
    rows: &[u8],
) -> Outcome {
    comparisons::beside(engine, rng, &unit.settings, unit.address, &unit.rows, rows);
    pages::beside(engine, rng, &unit.settings, unit.address, rows, ROOM)
}

/// Asserts that rows whose first ones are a tree's do not stop earlier.
fn stops_from<S: Coding>(
    engine: &mut Engine<S>,
    rng: &mut Rng,
    unit: &Unit<S>,
    rows: &[u8],
    first: usize,
) {
    let back = answer(engine, rng, unit, rows);
    let accepted = matches!(back.number, 0 | 17);
    assert!(accepted || back.value >= first as u64, "{back:?}: {:?} {rows:?}", unit.settings);
}

/// The first rows of a table: they end too early.
fn cut<S: Coding>(engine: &mut Engine<S>, rng: &mut Rng, unit: &Unit<S>, row: usize) {
    let back = answer(engine, rng, unit, &unit.rows[..8 * row]);
    assert_eq!((back.number, back.value), (27, row as u64), "{:?}", unit.settings);
}

/// A whole table with more rows: one of its own, junk, or so many that no unit has them.
fn gone_on<S: Coding>(engine: &mut Engine<S>, rng: &mut Rng, unit: &Unit<S>) {
    let whole = (unit.rows.len() / 8) as u64;
    let junk = 8 * (1 + rng.below(3));
    let own = 8 * rng.below(unit.rows.len() / 8);
    let many = unit.rows.iter().cycle().take(8 * MANY).copied().collect();
    for more in [unit.rows[own..own + 8].to_vec(), rng.bytes(junk), many] {
        let back = answer(engine, rng, unit, &[&unit.rows[..], &more].concat());
        assert_eq!((back.number, back.value), (28, whole), "{:?}", unit.settings);
    }
}

/// One row changed: those before it are a tree's.
fn changed<S: Coding>(engine: &mut Engine<S>, rng: &mut Rng, unit: &Unit<S>, row: usize) {
    let tables = broken::changed(&unit.rows, row);
    let table = &tables[rng.below(tables.len())];
    stops_from(engine, rng, unit, table, row);
}

/// A row left out, a row twice, and two rows exchanged.
fn moved<S: Coding>(engine: &mut Engine<S>, rng: &mut Rng, unit: &Unit<S>, row: usize) {
    let other = rng.below(unit.rows.len() / 8);
    stops_from(engine, rng, unit, &broken::left_out(&unit.rows, row), row);
    stops_from(engine, rng, unit, &broken::twice(&unit.rows, row), row + 1);
    let exchanged = broken::exchanged(&unit.rows, row, other);
    stops_from(engine, rng, unit, &exchanged, row.min(other));
}

/// The first rows of a table, then the last of another tree's of the same unit, or junk.
fn joined<S: Coding>(engine: &mut Engine<S>, rng: &mut Rng, unit: &Unit<S>, row: usize) {
    let flags = unit.settings.any_flags(unit.address, rng);
    let other = legal(engine, rng, unit.settings, unit.address, flags).rows;
    let rest = 8 * rng.below(other.len() / 8 + 1);
    let junk = 8 * (1 + rng.below(3));
    for rest in [other.get(8 * row..).unwrap_or_default(), &other[rest..], &rng.bytes(junk)] {
        stops_from(engine, rng, unit, &[&unit.rows[..8 * row], rest].concat(), row);
    }
}

/// The table of another unit: not even its first row has the corner.
fn elsewhere<S: Coding>(engine: &mut Engine<S>, rng: &mut Rng, unit: &Unit<S>) {
    let address = rng.draw() % unit.settings.unit_count();
    if address != unit.address {
        let back = pages::beside(engine, rng, &unit.settings, address, &unit.rows, ROOM);
        assert_eq!((back.number, back.value), (16, 0), "{:?}", unit.settings);
    }
}
