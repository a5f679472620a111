//! The tuned decoder beside `h266`: the same answers and the same buffers.

use h266::{Answer, Params, Settings};
use samples::{damage, settings, trees, Rng, Style};

/// More than the rows or flags of any unit need.
const ROOM: usize = 8_192;

/// A random legal unit and its rows.
struct Unit {
    settings: Settings,
    address: u64,
    flags: Vec<u8>,
    rows: Vec<u8>,
}

fn legal(rng: &mut Rng) -> Unit {
    let settings = settings::valid(rng);
    let address = rng.draw() % Params::new(&settings).expect("valid settings").unit_count();
    let style = rng.pick(&Style::ALL);
    let flags = trees::flags(&settings, address, rng, style);
    let mut unit = Unit { settings, address, flags, rows: Vec::new() };
    let (number, count) = read(rng, &unit, &unit.flags, ROOM);
    assert_eq!(number, 0, "a legal tree");
    unit.rows.resize(8 * count as usize, 0);
    h266::read_unit(&settings, address, &unit.flags, &mut unit.rows);
    unit
}

/// Makes a call on both sides, into equal buffers.
fn same(
    rng: &mut Rng,
    room: usize,
    h266: impl FnOnce(&mut [u8]) -> Answer,
    tuned: impl FnOnce(&mut [u8]) -> Answer,
) -> Answer {
    let mut expected = rng.bytes(room);
    let mut got = expected.clone();
    let answer = h266(&mut expected);
    assert_eq!(tuned(&mut got), answer);
    assert_eq!(got, expected);
    answer
}

fn read(rng: &mut Rng, unit: &Unit, flags: &[u8], room: usize) -> Answer {
    let Unit { settings, address, .. } = unit;
    let h266 = |lent: &mut [u8]| h266::read_unit(settings, *address, flags, lent);
    let tuned = |lent: &mut [u8]| tuned::read_unit(settings, *address, flags, lent);
    same(rng, room, h266, tuned)
}

fn write(rng: &mut Rng, unit: &Unit, rows: &[u8], room: usize) -> Answer {
    let Unit { settings, address, .. } = unit;
    let h266 = |lent: &mut [u8]| h266::write_flags(settings, *address, rows, lent);
    let tuned = |lent: &mut [u8]| tuned::write_flags(settings, *address, rows, lent);
    same(rng, room, h266, tuned)
}

#[test]
fn legal_units() {
    let mut rng = Rng::new(31);
    for _ in 0..10_000 {
        let unit = legal(&mut rng);
        let count = unit.flags.len() as u64;
        assert_eq!(write(&mut rng, &unit, &unit.rows, ROOM), (0, count));
        let room = rng.below(unit.rows.len() + 9);
        read(&mut rng, &unit, &unit.flags, room);
        let room = rng.below(unit.flags.len() + 2);
        write(&mut rng, &unit, &unit.rows, room);
    }
}

#[test]
fn damaged_units() {
    let mut rng = Rng::new(32);
    let (mut readings, mut tables) = (0, 0);
    for _ in 0..10_000 {
        let Unit { mut flags, mut rows, settings, address } = legal(&mut rng);
        damage::flags(&mut rng, &mut flags);
        damage::rows(&mut rng, &mut rows);
        let unit = Unit { flags, rows, settings, address };
        let lawless = trees::lawless_rows(&settings, address, &mut rng);
        readings += u32::from(read(&mut rng, &unit, &unit.flags, ROOM).0 != 0);
        tables += u32::from(write(&mut rng, &unit, &unit.rows, ROOM).0 != 0);
        tables += u32::from(write(&mut rng, &unit, &lawless, ROOM).0 != 0);
    }
    assert!(readings > 5_000 && tables > 10_000, "{readings} and {tables} refused");
}

#[test]
fn other_settings() {
    let mut rng = Rng::new(33);
    for number in (1..=9).cycle().take(9_000) {
        let unit = legal(&mut rng);
        let near = settings::neighbour(&mut rng, &unit.settings);
        let broken = settings::invalid(&mut rng, number);
        for settings in [near, broken] {
            let other = Unit { settings, flags: Vec::new(), rows: Vec::new(), ..unit };
            read(&mut rng, &other, &unit.flags, ROOM);
            write(&mut rng, &other, &unit.rows, ROOM);
        }
    }
}

#[test]
fn session_units() {
    let mut rng = Rng::new(34);
    for _ in 0..5_000 {
        let Unit { settings, address, flags, .. } = legal(&mut rng);
        let count = Params::new(&settings).expect("valid settings").unit_count();
        let due = rng.pick(&[address, address, count, count + 1, u64::MAX]);
        let named = rng.pick(&[address, address, 0]);
        let (mut ours, mut theirs) = (due, due);
        let h266 = |lent: &mut [u8]| h266::unit(&settings, &mut theirs, named, &flags, lent);
        let tuned = |lent: &mut [u8]| tuned::unit(&settings, &mut ours, named, &flags, lent);
        same(&mut rng, ROOM, h266, tuned);
        assert_eq!(ours, theirs);
    }
}
