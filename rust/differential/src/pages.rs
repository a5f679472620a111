//! Pages: of every kind of length, beside a way back, and far down the largest picture. Of a coding
//! without pages the rest is compared.

use colwythar::LINE_BYTES;
use samples::Rng;

use crate::calls::{legal, room, Unit};
use crate::{Coding, Engine, Outcome};

/// The bytes of a page of these rows.
fn needed(rows: &[u8]) -> usize {
    LINE_BYTES * (rows.len() / 8)
}

/// The page of a legal unit, lent empty, shorter, a byte short, exact and longer.
pub(crate) fn lengths<S: Coding>(engine: &mut Engine<S>, rng: &mut Rng, unit: &Unit<S>) {
    if S::PAGES.is_empty() {
        return;
    }
    let Unit { settings, address, rows, .. } = unit;
    let needed = needed(rows);
    for room in [0, rng.below(needed), needed - 1, needed, needed + 1 + rng.below(100)] {
        let page = engine.page(rng, settings, *address, rows, room);
        let number = if room < needed { 23 } else { 0 };
        let expected = (number, needed as u64);
        assert_eq!((page.number, page.value), expected, "{settings:?} {address} {rows:?}");
    }
}

/// Rows to flags, into a buffer of `flag_room` bytes, and to a page of a random length. What the
/// way back refuses, the page refuses alike. Answers the way back's outcome.
pub fn beside<S: Coding>(
    engine: &mut Engine<S>,
    rng: &mut Rng,
    settings: &S,
    address: u64,
    rows: &[u8],
    flag_room: usize,
) -> Outcome {
    let back = engine.write(rng, settings, address, rows, flag_room);
    if S::PAGES.is_empty() {
        return back;
    }
    let lent = room(rng, needed(rows));
    let page = engine.page(rng, settings, address, rows, lent);
    let answer = (page.number, page.value);
    match back.number {
        0 | 17 => assert!(matches!(page.number, 0 | 23), "{settings:?} {address} {rows:?}"),
        number => assert_eq!(answer, (number, back.value), "{settings:?} {address} {rows:?}"),
    }
    back
}

/// A unit of the largest picture, often its last one: addresses up to 262,143 in H.266, 1,048,575 in
/// H.265.
pub(crate) fn far<S: Coding>(engine: &mut Engine<S>, rng: &mut Rng) {
    let settings = S::valid(rng).with_picture(16_384, 16_384);
    let count = settings.unit_count();
    let address = if rng.percent(30) { count - 1 } else { rng.draw() % count };
    let flags = settings.any_flags(address, rng);
    let unit = legal(engine, rng, settings, address, flags);
    lengths(engine, rng, &unit);
}
