//! Where tables stop being trees, where the answer is known from the table alone.

use differential::pages;
use h266::Settings;
use samples::paper::{examples, Example};
use samples::{broken, hardest, trees, Rng, Style};

use crate::H266;

/// As many flag bytes as any unit needs.
const ROOM: usize = 8_192;

/// A whole table, and the engine that is asked about others.
struct Table {
    engine: H266,
    rng: Rng,
    settings: Settings,
    address: u64,
    rows: Vec<u8>,
}

impl Table {
    fn of(example: Example, seed: u64) -> Self {
        let Example { settings, address, rows, .. } = example;
        Self { engine: H266::default(), rng: Rng::new(seed), settings, address, rows }
    }

    /// 128 by 128 in blocks of 4 by 4, by random cuts, or by quads where these settings have no cuts.
    fn full(settings: Settings, seed: u64) -> Self {
        let (mut engine, mut rng) = (H266::default(), Rng::new(seed));
        let flags = trees::flags(&settings, 0, &mut rng, Style::Smallest);
        let rows = engine.read(&mut rng, &settings, 0, &flags, ROOM).written;
        assert_eq!(rows.len(), 8 * 1_024);
        Self { engine, rng, settings, address: 0, rows }
    }

    fn count(&self) -> usize {
        self.rows.len() / 8
    }

    /// Number and place of other rows, equal for the way back and the page.
    fn stop(&mut self, rows: &[u8]) -> (u64, usize) {
        let Self { engine, rng, settings, address, .. } = self;
        let back = pages::beside(engine, rng, settings, *address, rows, ROOM);
        (back.number, back.value as usize)
    }
}

/// In the paper's tables each row is the only one that can follow those before it.
#[test]
fn rows_missing_twice_and_exchanged() {
    for mut table in examples().map(|example| Table::of(example, 107)) {
        let (rows, last) = (table.rows.clone(), table.count() - 1);
        for row in 0..=last {
            let missing = if row == last { (27, row) } else { (16, row) };
            assert_eq!(table.stop(&broken::left_out(&rows, row)), missing, "{rows:?}");
            let twice = if row == last { (28, row + 1) } else { (16, row + 1) };
            assert_eq!(table.stop(&broken::twice(&rows, row)), twice, "{rows:?}");
            for other in 0..row {
                let exchanged = broken::exchanged(&rows, row, other);
                assert_eq!(table.stop(&exchanged), (16, other), "{rows:?}");
            }
        }
    }
}

/// After each byte of the paper's tables.
#[test]
fn tables_that_end_early() {
    for mut table in examples().map(|example| Table::of(example, 111)) {
        for end in 0..table.rows.len() {
            let number = if end % 8 == 0 { 27 } else { 15 };
            let cut = table.rows[..end].to_vec();
            assert_eq!(table.stop(&cut), (number, end / 8), "{cut:?}");
        }
    }
}

/// By quads alone each row is the only one that can follow; with cuts, a row may by chance be that of
/// another tree, and the table stops later.
#[test]
fn each_row_of_1024() {
    for settings in [[128, 4, 4, 0, 128, 64, 128, 128], [128, 4, 8, 10, 128, 64, 128, 128]] {
        let mut table = Table::full(settings, 112);
        let (rows, quads) = (table.rows.clone(), settings[3] == 0);
        for row in 0..1_024 {
            assert_eq!(table.stop(&rows[..8 * row]), (27, row));
            let changed = broken::changed(&rows, row);
            let (number, place) = table.stop(&changed[row % changed.len()]);
            assert!(number == 16 && place >= row && (place == row || !quads), "{number} {place}");
        }
    }
}

/// More rows than any unit has are refused like others.
#[test]
fn tables_longer_than_any_units() {
    for settings in [[128, 4, 4, 0, 128, 64, 128, 128], [128, 4, 8, 10, 128, 64, 128, 128]] {
        let mut table = Table::full(settings, 113);
        let twice = table.rows.repeat(2);
        assert_eq!(table.stop(&twice[..8 * 1_025]), (28, 1_024));
        assert_eq!(table.stop(&twice), (28, 1_024));
        // Corners are multiples of 4.
        for row in [0, 1, 500, 1_022, 1_023] {
            let mut changed = twice.clone();
            changed[8 * row] += 1;
            assert_eq!(table.stop(&changed), (16, row));
        }
    }
    let [mut one, mut four, ..] = examples().map(|example| Table::of(example, 114));
    assert_eq!(one.stop(&one.rows.repeat(2_000)), (28, 1));
    assert_eq!(four.stop(&four.rows.repeat(2_000)), (28, 4));
    assert_eq!(four.stop(&four.rows[..8].repeat(2_000)), (16, 1));
    assert_eq!(four.stop(&four.rows[8..].repeat(2_000)), (16, 0));
}

/// Broken at its end, and cut before each of its rows.
#[test]
fn the_hardest_table() {
    let (engine, rng) = (H266::default(), Rng::new(116));
    let (settings, rows) = (hardest::SETTINGS, hardest::rows());
    let mut table = Table { engine, rng, settings, address: 0, rows: rows.clone() };
    assert_eq!(table.stop(&rows), (16, 1_023));
    for row in 0..1_024 {
        assert_eq!(table.stop(&rows[..8 * row]), (27, row));
    }
}

/// Rows of random bytes, and tables that look like a tree's where they begin.
#[test]
fn junk() {
    for mut table in examples().map(|example| Table::of(example, 115)) {
        for count in (1..40).chain([1_023, 1_024, 1_025, 3_000]) {
            let junk = table.rng.bytes(8 * count);
            // No row begins with a byte of 255: corners are multiples of 4.
            let junk = [&[255], &junk[1..]].concat();
            assert_eq!(table.stop(&junk), (16, 0));
            let whole = table.count();
            assert_eq!(table.stop(&[&table.rows[..], &junk].concat()), (28, whole));
            for row in 0..whole {
                assert_eq!(table.stop(&[&table.rows[..8 * row], &junk].concat()), (16, row));
            }
        }
    }
}
