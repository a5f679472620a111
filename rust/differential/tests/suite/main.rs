//! The engine against `h266` and `tuned`, and for H.265 against `h265`: at least 200,000 calls on each,
//! with fixed seeds.

mod banks;
mod comparisons;
mod h265;
mod pages;
mod stops;
mod without_cuts;

use colwythar::max_flags_of_rows;
use differential::{calls, sessions, small, Engine, Entry};
use h266::Params;
use samples::longest::{self, Longest};
use samples::Rng;

/// The engine beside `h266` and `tuned`.
type H266 = Engine<h266::Settings>;

/// Single units: legal, damaged, with every kind of buffer, with broken settings.
#[test]
fn single_units() {
    let (mut engine, mut rng) = (H266::default(), Rng::new(101));
    for _ in 0..8_000 {
        calls::round(&mut engine, &mut rng);
    }
    let tally = &engine.tally;
    println!("{tally}");
    assert!(tally.calls() >= 150_000, "{tally}");
    let entries =
        [Entry::Read, Entry::Write, Entry::Page, Entry::Compare, Entry::Open, Entry::Count];
    entries.into_iter().for_each(|entry| tally.assert_each(entry, 300));
    assert!(tally.of(Entry::Read, 0) >= 20_000, "{tally}");
    assert!(tally.of(Entry::Write, 0) >= 15_000, "{tally}");
    assert!(tally.of(Entry::Page, 0) >= 20_000, "{tally}");
    for number in [16, 27, 28] {
        assert!(tally.of(Entry::Write, number) >= 15_000, "{tally}");
        assert!(tally.of(Entry::Page, number) >= 15_000, "{tally}");
        assert!(tally.of(Entry::Compare, number) >= 15_000, "{tally}");
    }
}

/// Every width and height of the units at the right and bottom edge, for every CTU side.
#[test]
fn edges() {
    let (mut engine, mut rng) = (H266::default(), Rng::new(104));
    for ctu in [32, 64, 128] {
        for width in (8..=ctu).step_by(8) {
            for height in (8..=ctu).step_by(8) {
                for max_mtt in [0, 3] {
                    let (width, height) = (ctu + width, ctu + height);
                    let settings = [ctu, 4, 8, max_mtt, ctu, ctu.min(64), width, height];
                    calls::all_units(&mut engine, &mut rng, settings);
                }
            }
        }
    }
    println!("{}", engine.tally);
    assert!(engine.tally.calls() >= 100_000, "{}", engine.tally);
    assert!(engine.tally.finer().iter().all(|&times| times >= 10_000), "{}", engine.tally);
    for (number, least) in
        [(0, 15_000), (15, 15_000), (16, 15_000), (23, 15_000), (27, 5_000), (28, 5_000)]
    {
        assert!(engine.tally.of(Entry::Page, number) >= least, "{}", engine.tally);
    }
}

/// Whole pictures, refused calls in between, calls after the end, forged sessions.
#[test]
fn pictures() {
    let (mut engine, mut rng) = (H266::default(), Rng::new(102));
    for _ in 0..3_000 {
        sessions::picture(&mut engine, &mut rng);
    }
    let tally = &engine.tally;
    println!("{tally}");
    assert!(tally.calls() >= 30_000, "{tally}");
    tally.assert_each(Entry::Unit, 200);
    assert!(tally.of(Entry::Unit, 0) >= 10_000, "{tally}");
}

/// Every tree of every unit that is small enough.
#[test]
fn small_units_in_full() {
    let (mut engine, mut rng) = (H266::default(), Rng::new(103));
    let (mut units, mut trees) = (0, 0);
    for settings in samples::small::settings() {
        let last = Params::new(&settings).expect("valid settings").unit_count() - 1;
        let found = small::unit(&mut engine, &mut rng, &settings, last, 300);
        units += usize::from(found.is_some());
        trees += found.unwrap_or(0);
    }
    println!("{units} units, {trees} trees\n{}", engine.tally);
    assert!(units >= 500 && trees >= 5_000, "{units} units, {trees} trees");
    // All pairs of the tables of those with the fewest trees.
    assert!(engine.tally.finer().iter().all(|&times| times >= 15_000), "{}", engine.tally);
    assert!(engine.tally.calls() >= 20_000, "{}", engine.tally);
}

/// Read, and turned back: into a buffer that just holds the flags, and into one that is a byte
/// shorter.
fn assert_longest(engine: &mut H266, rng: &mut Rng, unit: &Longest) {
    let Longest { settings, flags, rows } = unit;
    let read = engine.read(rng, settings, 0, flags, 8 * rows);
    assert_eq!((read.number, read.value), (0, *rows as u64), "{unit:?}");
    let back = engine.write(rng, settings, 0, &read.written, flags.len());
    assert_eq!((back.number, &back.written), (0, flags), "{unit:?}");
    let short = engine.write(rng, settings, 0, &read.written, flags.len() - 1);
    assert_eq!((short.number, short.value), (17, flags.len() as u64), "{unit:?}");
}

/// Units that have as many flags as is planned for their rows, or for their CTU side.
#[test]
fn planned_flags_are_reached() {
    let (mut engine, mut rng) = (H266::default(), Rng::new(105));
    for rows in 1..=64 {
        let unit = longest::of_rows(rows);
        assert_eq!(unit.flags.len(), max_flags_of_rows(rows));
        assert_longest(&mut engine, &mut rng, &unit);
    }
    for (ctu, most) in [(32, 110), (64, 446), (128, 1786)] {
        let unit = longest::of_ctu(ctu);
        assert_eq!(unit.flags.len(), most);
        assert_longest(&mut engine, &mut rng, &unit);
    }
}
