//! Random legal trees: covering, and the way back.

use h266::{read_unit, write_flags, Params, Settings};
use samples::{damage, settings, trees, Rng, Style};

const ROOM: usize = 8192;

pub struct Case {
    pub settings: Settings,
    pub address: u64,
    flags: Vec<u8>,
    pub rows: Vec<u8>,
}

/// A random legal unit and its rows.
pub fn case(rng: &mut Rng) -> Case {
    let settings = settings::valid(rng);
    let units = Params::new(&settings).expect("valid settings").unit_count();
    let address = rng.draw() % units;
    case_of(rng, settings, address)
}

/// A random tree of this unit.
pub fn case_of(rng: &mut Rng, settings: Settings, address: u64) -> Case {
    let style = rng.pick(&Style::ALL);
    let flags = trees::flags(&settings, address, rng, style);
    let mut rows = vec![0; ROOM];
    let (number, count) = read_unit(&settings, address, &flags, &mut rows);
    assert_eq!(number, 0, "{settings:?} unit {address} {flags:?}");
    rows.truncate(8 * count as usize);
    Case { settings, address, flags, rows }
}

/// Every sample of the unit inside the picture lies in exactly one row, and no other does.
fn assert_covered(case: &Case) {
    let params = Params::new(&case.settings).expect("valid settings");
    let root = params.root(case.address).expect("a unit");
    let side = params.ctb_size_y;
    let mut times = vec![0; (side * side) as usize];
    for row in case.rows.chunks_exact(8) {
        let x = u32::from(u16::from_le_bytes([row[0], row[1]])) - root.x0;
        let y = u32::from(u16::from_le_bytes([row[2], row[3]])) - root.y0;
        let cells = (0..1 << row[5]).flat_map(|j| (0..1 << row[4]).map(move |i| (x + i, y + j)));
        cells.for_each(|(x, y)| times[(y * side + x) as usize] += 1);
    }
    for (at, &times) in times.iter().enumerate() {
        let (x, y) = (root.x0 + at as u32 % side, root.y0 + at as u32 / side);
        let in_picture = x < params.pic_width && y < params.pic_height;
        assert_eq!(times, u32::from(in_picture), "sample {x}, {y}");
    }
}

#[test]
fn every_sample_in_one_row() {
    let mut rng = Rng::new(11);
    for _ in 0..2_000 {
        assert_covered(&case(&mut rng));
    }
}

#[test]
fn way_back_gives_the_flags() {
    let mut rng = Rng::new(12);
    for _ in 0..20_000 {
        let case = case(&mut rng);
        let mut flags = vec![0xa5; case.flags.len() + rng.below(3)];
        let answer = write_flags(&case.settings, case.address, &case.rows, &mut flags);
        assert_eq!(answer, (0, case.flags.len() as u64), "{:?} {:?}", case.settings, case.flags);
        assert_eq!(flags[..case.flags.len()], case.flags);
        assert!(flags[case.flags.len()..].iter().all(|&byte| byte == 0xa5));
    }
}

/// Whatever the way back accepts must read to the same rows again.
#[test]
fn damaged_tables_are_refused_or_read_back() {
    let mut rng = Rng::new(13);
    let mut refused = 0;
    for _ in 0..20_000 {
        let mut case = case(&mut rng);
        if rng.percent(60) {
            damage::rows(&mut rng, &mut case.rows);
        } else {
            case.rows = trees::lawless_rows(&case.settings, case.address, &mut rng);
        }
        let mut flags = vec![0xa5; ROOM];
        let (number, count) = write_flags(&case.settings, case.address, &case.rows, &mut flags);
        if number == 0 {
            let mut rows = vec![0; case.rows.len()];
            let answer =
                read_unit(&case.settings, case.address, &flags[..count as usize], &mut rows);
            assert_eq!(answer, (0, case.rows.len() as u64 / 8));
            assert_eq!(rows, case.rows);
        } else {
            refused += 1;
            assert!(flags.iter().all(|&byte| byte == 0xa5));
        }
    }
    assert!((12_000..19_000).contains(&refused), "{refused} refused");
}

#[test]
fn refused_readings_leave_the_buffer() {
    let mut rng = Rng::new(14);
    for _ in 0..10_000 {
        let mut case = case(&mut rng);
        damage::flags(&mut rng, &mut case.flags);
        let before = rng.bytes(ROOM);
        let mut rows = before.clone();
        let (number, count) = read_unit(&case.settings, case.address, &case.flags, &mut rows);
        let written = if number == 0 { 8 * count as usize } else { 0 };
        assert_eq!(rows[written..], before[written..]);
    }
}
