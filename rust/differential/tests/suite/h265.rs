//! H.265: the engine against `h265`.

use differential::{calls, sessions, small, Coding, Engine, Entry, UnitCall};
use h265::Settings;
use samples::Rng;

type H265 = Engine<Settings>;

/// More than the rows of any unit take.
const ROOM: usize = 600;

/// The settings of a CTU side: each smallest side.
fn each_smallest(ctu: u32) -> impl Iterator<Item = [u32; 2]> {
    (3..=ctu.ilog2()).map(move |log2| [ctu, 1 << log2])
}

/// The widths and heights of a picture up to these, in smallest blocks.
fn pictures(from: u32, to: u32, smallest: u32) -> impl Iterator<Item = (u32, u32)> {
    let sides = move || (from + smallest..=to).step_by(smallest as usize);
    sides().flat_map(move |width| sides().map(move |height| (width, height)))
}

/// Single units: legal, damaged, with every kind of buffer, with broken settings.
#[test]
fn single_units() {
    let (mut engine, mut rng) = (H265::default(), Rng::new(201));
    for _ in 0..6_000 {
        calls::round(&mut engine, &mut rng);
    }
    let tally = &engine.tally;
    println!("{tally}");
    assert!(tally.calls() >= 200_000, "{tally}");
    for entry in [Entry::Read, Entry::Write, Entry::Open, Entry::Count] {
        tally.assert_each(entry, 500);
    }
    for number in [0, 16, 27, 28] {
        assert!(tally.of(Entry::Write, number) >= 15_000, "{tally}");
    }
}

/// Every width and height of the units at the right and bottom edge, for every CTU side and smallest
/// side.
#[test]
fn edges() {
    let (mut engine, mut rng) = (H265::default(), Rng::new(202));
    for [ctu, smallest] in [16, 32, 64].into_iter().flat_map(each_smallest) {
        for (width, height) in pictures(ctu, 2 * ctu, smallest) {
            calls::all_units(&mut engine, &mut rng, [ctu, smallest, width, height]);
        }
    }
    println!("{}", engine.tally);
    for (number, least) in [(0, 4_000), (15, 1_000), (16, 4_000), (17, 500), (27, 500), (28, 500)] {
        assert!(engine.tally.of(Entry::Write, number) >= least, "{}", engine.tally);
    }
}

/// Every tree of every picture of one unit. How many there are follows from R-10's words: a node has one
/// more than the product of its parts' where it has a flag, and just as many where it is out.
#[test]
fn all_units_in_full() {
    let (mut engine, mut rng) = (H265::default(), Rng::new(203));
    let (mut units, mut trees) = (0, 0);
    for [ctu, smallest] in [16, 32, 64].into_iter().flat_map(each_smallest) {
        for (width, height) in pictures(0, ctu, smallest) {
            let settings = [ctu, smallest, width, height];
            let found = small::unit(&mut engine, &mut rng, &settings, 0, 100_000);
            units += 1;
            trees += found.expect("few trees");
        }
    }
    println!("{units} units, {trees} trees\n{}", engine.tally);
    assert_eq!((units, trees), (111, 106_259));
}

/// Whole pictures, refused calls in between, calls after the end, forged sessions.
#[test]
fn many_pictures() {
    let (mut engine, mut rng) = (H265::default(), Rng::new(204));
    for _ in 0..2_000 {
        sessions::picture(&mut engine, &mut rng);
    }
    let tally = &engine.tally;
    println!("{tally}");
    tally.assert_each(Entry::Unit, 200);
    assert!(tally.of(Entry::Unit, 0) >= 10_000, "{tally}");
}

/// 1,024 units in a row, and one below another, to the end.
#[test]
fn the_longest_pictures() {
    let (mut engine, mut rng) = (H265::default(), Rng::new(205));
    for (width, height) in [(16_384, 16), (16, 16_384), (16_384, 8), (8, 16_384)] {
        sessions::whole(&mut engine, &mut rng, [16, 8, width, height]);
    }
    assert!(engine.tally.of(Entry::Unit, 0) >= 4 * 1_024, "{}", engine.tally);
}

/// The picture with 1,048,576 units: single units at the ends of its rows, and its session's end.
#[test]
fn the_largest_picture() {
    let (mut engine, mut rng) = (H265::default(), Rng::new(206));
    let settings = [16, 8, 16_384, 16_384];
    let count = settings.unit_count();
    assert_eq!(count, 1 << 20);
    for address in [0, 1_023, 1_024, 1_025, 65_535, 65_536, count / 2, count - 1_024, count - 1] {
        let read = engine.read(&mut rng, &settings, address, &[0], 8);
        let corner = [address % 1_024, address / 1_024].map(|place| 16 * place as u16);
        let [x, y] = corner.map(u16::to_le_bytes);
        assert_eq!(read.written, [x[0], x[1], y[0], y[1], 4, 4, 0, 0]);
        let back = engine.write(&mut rng, &settings, address, &read.written, 1);
        assert_eq!(back.written, [0]);
    }
    for address in [count, count + 1, 1 << 32, (1 << 32) + 5, u64::MAX] {
        assert_eq!(engine.read(&mut rng, &settings, address, &[0], 8).number, 10);
        assert_eq!(engine.write(&mut rng, &settings, address, &[], 8).number, 10);
    }
    let mut unit = |mut due: u64, address: u64| {
        let call = UnitCall { address, flags: vec![0], room: 8 };
        let outcome = engine.unit(&mut rng, &settings, &mut due, &call);
        (outcome.number, outcome.value)
    };
    assert_eq!(unit(count - 1, count - 1), (0, 1));
    assert_eq!(unit(count - 1, count), (21, count - 1));
    assert_eq!(unit(count, count), (20, 0));
    for forged in [count + 1, 1 << 32, (1 << 32) + count, u64::MAX] {
        assert_eq!(unit(forged, forged), (22, 0));
    }
}

/// Numbers around each limit of the four settings, in all combinations.
#[test]
fn settings_near_the_limits() {
    let (mut engine, mut rng) = (H265::default(), Rng::new(207));
    let sides = [0, 1, 4, 7, 8, 9, 12, 15, 16, 17, 24, 31, 32, 33, 48, 63, 64, 65, 96, 128, 256];
    let lengths = [
        0, 1, 7, 8, 9, 12, 16, 24, 32, 40, 48, 63, 64, 65, 72, 16_320, 16_368, 16_376, 16_383,
        16_384, 16_385, 16_392, 16_400, 16_448, 32_768, 65_544,
    ];
    let huge = [1 << 31, (1 << 31) + 64, u32::MAX - 63, u32::MAX];
    for (ctu, smallest) in sides.iter().flat_map(|&c| sides.iter().map(move |&s| (c, s))) {
        for (&width, &height) in lengths.iter().flat_map(|w| lengths.iter().map(move |h| (w, h))) {
            engine.open(&mut rng, &[ctu, smallest, width, height]);
        }
    }
    for (field, value) in (0..4).flat_map(|field| huge.map(|value| (field, value))) {
        let mut settings = [16, 8, 64, 64];
        settings[field] = value;
        assert_ne!(engine.open(&mut rng, &settings), 0);
    }
    engine.tally.assert_each(Entry::Open, 500);
    println!("{}", engine.tally);
}

/// Units whose flags and rows are tried byte by byte.
fn examples() -> [(Settings, u64, Vec<u8>); 6] {
    [
        ([64, 8, 64, 64], 0, vec![0]),
        ([64, 8, 64, 64], 0, vec![1, 0, 1, 0, 0, 0, 1, 0, 0]),
        ([64, 8, 64, 64], 0, vec![1; 21]),
        ([64, 16, 208, 208], 15, vec![]),
        ([32, 8, 56, 48], 3, vec![0]),
        ([16, 8, 16_384, 24], 1_023, vec![1]),
    ]
}

/// Buffers of every length up to some more than is needed.
#[test]
fn buffers_of_every_length() {
    let (mut engine, mut rng) = (H265::default(), Rng::new(208));
    for (settings, address, flags) in examples() {
        let rows = engine.read(&mut rng, &settings, address, &flags, ROOM).written;
        for room in 0..rows.len() + 20 {
            let read = engine.read(&mut rng, &settings, address, &flags, room);
            assert_eq!(read.number, if room < rows.len() { 14 } else { 0 }, "{settings:?}");
        }
        for room in 0..flags.len() + 20 {
            let back = engine.write(&mut rng, &settings, address, &rows, room);
            assert_eq!(back.number, if room < flags.len() { 17 } else { 0 }, "{settings:?}");
        }
    }
}

/// Each flag and each byte of a table with each other value, cut at each byte, and with a byte behind.
#[test]
fn every_change_of_a_byte() {
    let (mut engine, mut rng) = (H265::default(), Rng::new(209));
    for (settings, address, flags) in examples() {
        let rows = engine.read(&mut rng, &settings, address, &flags, ROOM).written;
        for value in 0..=255 {
            let longer = [&flags[..], &[value]].concat();
            assert_eq!(engine.read(&mut rng, &settings, address, &longer, ROOM).number, 13);
            for changed in with_each_byte(&flags, value) {
                engine.read(&mut rng, &settings, address, &changed, ROOM);
            }
            for changed in with_each_byte(&rows, value) {
                engine.write(&mut rng, &settings, address, &changed, 64);
            }
        }
        for end in 0..rows.len() {
            let cut = engine.write(&mut rng, &settings, address, &rows[..end], 64);
            let number = if end % 8 == 0 { 27 } else { 15 };
            assert_eq!((cut.number, cut.value), (number, end as u64 / 8), "{settings:?}");
        }
        let cuts = (0..flags.len()).map(|end| &flags[..end]);
        cuts.for_each(|cut| {
            assert_eq!(engine.read(&mut rng, &settings, address, cut, 0).number, 11)
        });
    }
    let tally = &engine.tally;
    println!("{tally}");
    assert!(tally.of(Entry::Write, 16) >= 50_000 && tally.of(Entry::Read, 12) >= 5_000, "{tally}");
}

/// The bytes with this value in place of each.
fn with_each_byte(bytes: &[u8], value: u8) -> impl Iterator<Item = Vec<u8>> + '_ {
    (0..bytes.len()).map(move |at| [&bytes[..at], &[value], &bytes[at + 1..]].concat())
}

/// More rows than any unit has, and junk.
#[test]
fn long_tables_and_junk() {
    let (mut engine, mut rng) = (H265::default(), Rng::new(210));
    for (settings, address, flags) in examples() {
        let rows = engine.read(&mut rng, &settings, address, &flags, ROOM).written;
        let whole = rows.len() as u64 / 8;
        for times in [2, 3, 64, 65, 2_000] {
            let many = engine.write(&mut rng, &settings, address, &rows.repeat(times), 64);
            assert_eq!((many.number, many.value), (28, whole), "{settings:?}");
        }
        for count in (1..70).chain([1_023, 1_024, 1_025, 3_000]) {
            // Corners are multiples of 8.
            let junk = [&[255], &rng.bytes(8 * count)[1..]].concat();
            for row in 0..=whole {
                let begun = [&rows[..8 * row as usize], &junk].concat();
                let number = if row == whole { 28 } else { 16 };
                let stopped = engine.write(&mut rng, &settings, address, &begun, 64);
                assert_eq!((stopped.number, stopped.value), (number, row), "{settings:?}");
            }
        }
    }
}
