//! One call on all sides.

use colwythar::{max_flags_of_rows, LINE_BYTES};
use h266::{rows, Board};
use samples::Rng;

use crate::call::Call;
use crate::coding::{OnUnit, Side};
use crate::{Coding, Entry, Outcome, Tally};

/// The engine, watched by the decoders beside it. Every method panics where one of them differs.
#[derive(Debug)]
pub struct Engine<S> {
    /// The answers so far.
    pub tally: Tally<S>,
}

impl<S: Coding> Default for Engine<S> {
    fn default() -> Self {
        Self { tally: Tally::default() }
    }
}

impl<S: Coding> Engine<S> {
    /// Flags to rows, into a buffer of `room` bytes.
    pub fn read(&mut self, rng: &mut Rng, s: &S, at: u64, flags: &[u8], room: usize) -> Outcome {
        let read = |side: &Side<S>, lent: &mut [u8]| (side.read)(s, at, flags, lent);
        let input = || format!("read {s:?}, unit {at}, flags {flags:?}, room {room}");
        let call = Call { entry: Entry::Read, size: 8, room };
        let outcome = call.make(&mut self.tally, rng, S::SIDES, read, input);
        assert_read(s, flags, &outcome);
        outcome
    }

    /// Rows to flags, into a buffer of `room` bytes.
    pub fn write(&mut self, rng: &mut Rng, s: &S, at: u64, rows: &[u8], room: usize) -> Outcome {
        let write = |side: &Side<S>, lent: &mut [u8]| (side.write)(s, at, rows, lent);
        let input = || format!("write {s:?}, unit {at}, rows {rows:?}, room {room}");
        let call = Call { entry: Entry::Write, size: 1, room };
        let outcome = call.make(&mut self.tally, rng, S::SIDES, write, input);
        if outcome.number == 0 || outcome.number == 17 {
            assert_planned(s, rows.len() / 8, outcome.value as usize);
        }
        outcome
    }

    /// Rows to a page of `room` bytes.
    ///
    /// # Panics
    ///
    /// Where the coding has no pages, too.
    pub fn page(&mut self, rng: &mut Rng, s: &S, at: u64, rows: &[u8], room: usize) -> Outcome {
        let print = |page: &OnUnit<S>, lent: &mut [u8]| page(s, at, rows, lent);
        let input = || format!("page {s:?}, unit {at}, rows {rows:?}, room {room}");
        let call = Call { entry: Entry::Page, size: 1, room };
        let outcome = call.make(&mut self.tally, rng, S::PAGES, print, input);
        if outcome.number == 0 || outcome.number == 23 {
            let bytes = outcome.value as usize;
            assert_eq!(bytes, LINE_BYTES * (rows.len() / 8), "{}", input());
            assert_eq!(outcome.number == 0, bytes <= room, "{}", input());
        }
        outcome
    }

    /// Opens a session, counts its units and answers the number. Where the settings are refused,
    /// the address due stays as it was. `tuned` has the settings' check of `h266`.
    pub fn open(&mut self, rng: &mut Rng, settings: &S) -> u64 {
        let [engine, second] = S::OPENINGS;
        let before = rng.draw();
        let [mut first, mut other] = [before; 2];
        let (number, place) = (engine.open)(settings, &mut first);
        let answer = (second.open)(settings, &mut other);
        assert_eq!((number, place), answer, "open {settings:?}");
        assert_eq!(first, other, "the address due after open {settings:?}");
        assert_eq!(first, if number == 0 { 0 } else { before }, "after open {settings:?}");
        self.tally.count(Entry::Open, number);
        let (number, count) = (engine.count)(settings);
        assert_eq!((number, count), (second.count)(settings), "units of {settings:?}");
        self.tally.count(Entry::Count, number);
        number
    }

    /// A unit of a session, into a buffer of `room` bytes. All sides begin with this address due
    /// and have to end with the same.
    pub fn unit(&mut self, rng: &mut Rng, s: &S, due: &mut u64, call: &UnitCall) -> Outcome {
        let UnitCall { address, flags, room } = call;
        let (before, mut after) = (*due, Vec::new());
        let unit = |side: &Side<S>, lent: &mut [u8]| {
            let mut due = before;
            let answer = (side.unit)(s, &mut due, *address, flags, lent);
            after.push(due);
            answer
        };
        let input = || format!("unit {s:?}, due {before}, {call:?}");
        let made = Call { entry: Entry::Unit, size: 8, room: *room };
        let outcome = made.make(&mut self.tally, rng, S::SIDES, unit, input);
        *due = before + u64::from(outcome.number == 0);
        assert!(after.iter().all(|after| after == due), "{after:?} are due after {}", input());
        assert_read(s, flags, &outcome);
        outcome
    }
}

/// The rows of an accepted reading stay in pipeline units and come one such unit after the other,
/// and had no more flags than is planned.
pub(crate) fn assert_read<S: Coding>(settings: &S, flags: &[u8], outcome: &Outcome) {
    assert_in_pipeline(settings, &outcome.written);
    if outcome.number == 0 {
        assert_in_order(settings, &outcome.written);
        assert_planned(settings, outcome.value as usize, flags.len());
    }
}

/// The board can work with a table: each pipeline unit is complete before a row of another one.
pub(crate) fn assert_in_order<S: Coding>(settings: &S, table: &[u8]) {
    let (width, height) = settings.picture();
    let mut board = Board::new(settings.pipeline_side(), width, height);
    let met = rows(table).try_for_each(|row| board.row(&row)).and_then(|()| board.start());
    assert_eq!(met, Ok(()), "{settings:?}, {:?}", rows(table).collect::<Vec<_>>());
}

/// A unit has no more rows than its settings have, and no more flags than is planned for them, and
/// than its settings have.
fn assert_planned<S: Coding>(settings: &S, rows: usize, flags: usize) {
    assert!(rows <= settings.max_rows(), "{rows} rows: {settings:?}");
    assert!(flags + 4 <= 6 * rows, "{flags} flags of {rows} rows: {settings:?}");
    assert!(flags <= max_flags_of_rows(rows), "{flags} flags of {rows} rows: {settings:?}");
    assert!(flags <= settings.max_flags(), "{flags} flags: {settings:?}");
}

/// Each row lies inside one pipeline unit or consists of whole ones; with a CTU side below 64, no
/// row leaves its own.
fn assert_in_pipeline<S: Coding>(settings: &S, table: &[u8]) {
    let side = settings.pipeline_side();
    for row in rows(table) {
        let kept = if side < 64 { row.pipeline_units(side) == 1 } else { row.is_in_pipeline(side) };
        assert!(kept, "{row:?} leaves its pipeline unit of {side}: {settings:?}");
    }
}

/// A unit call on a session.
#[derive(Clone, Debug)]
pub struct UnitCall {
    /// The address named.
    pub address: u64,
    /// The flags given.
    pub flags: Vec<u8>,
    /// The length of the row buffer.
    pub room: usize,
}
