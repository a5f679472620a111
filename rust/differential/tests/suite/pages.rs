//! Pages of the engine beside those of `h266`.

use colwythar::MAX_PAGE_BYTES;
use differential::{pages, Entry};
use samples::paper::{examples, Example};
use samples::{deepest, Rng};

use crate::H266;

/// As many flag bytes as any unit needs.
const ROOM: usize = 8_192;

/// The paper's tables with every byte changed to every other value: no tree gives them.
#[test]
fn every_change_of_a_byte() {
    let (mut engine, mut rng) = (H266::default(), Rng::new(106));
    for Example { settings, address, rows, .. } in examples() {
        for (at, change) in (0..rows.len()).flat_map(|at| (0..=255).map(move |c| (at, c))) {
            let mut changed = rows.clone();
            changed[at] ^= change;
            let back = pages::beside(&mut engine, &mut rng, &settings, address, &changed, ROOM);
            // The rows before the changed one are a tree's.
            let stopped = back.number == 16 && back.value >= at as u64 / 8;
            assert!(
                if change == 0 { back.number == 0 } else { stopped },
                "{settings:?} {changed:?}"
            );
        }
    }
    let (printed, short) = (engine.tally.of(Entry::Page, 0), engine.tally.of(Entry::Page, 23));
    // 27 rows of 8 bytes.
    assert_eq!(printed + short, 27 * 8);
    assert!(printed >= 50 && short >= 50, "{}", engine.tally);
    assert_eq!(engine.tally.of(Entry::Page, 16), 27 * 8 * 255);
}

/// Units of the largest pictures that are one row, at addresses of one to six digits.
#[test]
fn addresses_of_every_length() {
    let (mut engine, mut rng) = (H266::default(), Rng::new(108));
    let addresses = [0, 9, 10, 99, 100, 999, 1_000, 9_999, 10_000, 99_999, 100_000, 262_143];
    for (ctu, last) in [(32, 262_143), (64, 65_535), (128, 16_383)] {
        let settings = [ctu, 4, 8, 3, ctu, ctu.min(64), 16_384, 16_384];
        for address in addresses.into_iter().map(|address| last.min(address)) {
            let read = engine.read(&mut rng, &settings, address, &[0], 8);
            let page = engine.page(&mut rng, &settings, address, &read.written, 33);
            assert_eq!(page.number, 0, "{settings:?} {address}");
            assert_eq!(page.written[..6], *format!("{address:>6}").as_bytes());
        }
        let row = engine.read(&mut rng, &settings, last, &[0], 8).written;
        assert_eq!(engine.page(&mut rng, &settings, last + 1, &row, 33).number, 10);
    }
}

/// MTT depths of one and two digits.
#[test]
fn the_deepest_rows() {
    let (mut engine, mut rng) = (H266::default(), Rng::new(110));
    let page = engine.page(&mut rng, &deepest::SETTINGS, 0, &deepest::rows(), 1_000);
    assert_eq!((page.number, page.value), (0, 33 * 11));
    assert_eq!(page.written[..33], *b"     0     0     0   4   4  0 10\n");
}

/// The unit with the most rows, by quads alone, fills the longest page.
#[test]
fn the_longest_page() {
    let (mut engine, mut rng) = (H266::default(), Rng::new(109));
    let settings = [128, 4, 4, 0, 128, 64, 16_384, 16_384];
    for address in [0, 16_383] {
        let read = engine.read(&mut rng, &settings, address, &[1; 341], ROOM);
        assert_eq!((read.number, read.value), (0, 1_024));
        for (room, number) in
            [(MAX_PAGE_BYTES - 1, 23), (MAX_PAGE_BYTES, 0), (MAX_PAGE_BYTES + 1, 0)]
        {
            let page = engine.page(&mut rng, &settings, address, &read.written, room);
            assert_eq!((page.number, page.value), (number, MAX_PAGE_BYTES as u64));
        }
    }
}
