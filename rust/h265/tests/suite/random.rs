//! Random trees: covering, the way back, and buffers that are left as they were.

use h265::{read_unit, write_flags, Answer, Params, Settings};
use samples::{damage, quads, Rng};

const ROOM: usize = 600;

struct Case {
    settings: Settings,
    address: u64,
    flags: Vec<u8>,
    rows: Vec<u8>,
}

/// A random unit and its rows.
fn case(rng: &mut Rng) -> Case {
    let settings = quads::valid(rng);
    let address = rng.draw() % Params::new(&settings).expect("valid settings").unit_count();
    let ones = rng.pick(&quads::STYLES);
    let flags = quads::flags(&settings, address, rng, ones);
    let mut rows = vec![0; ROOM];
    let (number, count) = read_unit(&settings, address, &flags, &mut rows);
    assert_eq!(number, 0, "{settings:?} unit {address} {flags:?}");
    rows.truncate(8 * count as usize);
    Case { settings, address, flags, rows }
}

/// Every smallest block of the unit inside the picture lies in exactly one row, and no other does.
fn assert_covered(case: &Case) {
    let [ctu, smallest, width, height] = case.settings;
    let across = u64::from(width.div_ceil(ctu));
    let [left, top] = [case.address % across, case.address / across].map(|n| n as u32 * ctu);
    for (x, y) in (0..ctu / smallest).flat_map(|i| (0..ctu / smallest).map(move |j| (i, j))) {
        let (x, y) = (left + x * smallest, top + y * smallest);
        let has = |row: &&[u8]| {
            let corner = |low: u8, high: u8| u32::from(u16::from_le_bytes([low, high]));
            let (x0, y0) = (corner(row[0], row[1]), corner(row[2], row[3]));
            (x0..x0 + (1 << row[4])).contains(&x) && (y0..y0 + (1 << row[5])).contains(&y)
        };
        let times = case.rows.chunks(8).filter(has).count();
        assert_eq!(times, usize::from(x < width && y < height), "{:?}: {x}, {y}", case.settings);
    }
}

#[test]
fn every_block_in_one_row_and_back() {
    let mut rng = Rng::new(51);
    for _ in 0..20_000 {
        let case = case(&mut rng);
        assert_covered(&case);
        let mut flags = vec![0xa5; case.flags.len() + rng.below(3)];
        let answer = write_flags(&case.settings, case.address, &case.rows, &mut flags);
        assert_eq!(answer, (0, case.flags.len() as u64), "{:?} {:?}", case.settings, case.flags);
        assert_eq!(flags[..case.flags.len()], case.flags);
        assert!(flags[case.flags.len()..].iter().all(|&byte| byte == 0xa5));
    }
}

/// Damaged flags and rows, and rows of other trees: nothing but what is answered is written.
#[test]
fn bytes_past_the_answer_stay() {
    let mut rng = Rng::new(52);
    let mut accepted = [0; 2];
    for _ in 0..20_000 {
        let Case { settings, address, mut flags, mut rows } = case(&mut rng);
        damage::flags(&mut rng, &mut flags);
        if rng.percent(60) {
            damage::rows(&mut rng, &mut rows);
        } else {
            rows = quads::lawless_rows(&settings, address, &mut rng);
        }
        let read = |lent: &mut [u8]| read_unit(&settings, address, &flags, lent);
        accepted[0] += usize::from(leaves_the_rest(&mut rng, 8, read));
        let write = |lent: &mut [u8]| write_flags(&settings, address, &rows, lent);
        accepted[1] += usize::from(leaves_the_rest(&mut rng, 1, write));
    }
    assert!(accepted.iter().all(|times| (1_000..10_000).contains(times)), "{accepted:?}");
}

/// Makes a call whose answer counts items of this size, and answers whether it is accepted.
fn leaves_the_rest(rng: &mut Rng, size: usize, call: impl Fn(&mut [u8]) -> Answer) -> bool {
    let before = rng.bytes(ROOM);
    let mut lent = before.clone();
    let (number, count) = call(&mut lent);
    let written = if number == 0 { size * count as usize } else { 0 };
    assert_eq!(lent[written..], before[written..]);
    number == 0
}
