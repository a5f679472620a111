//! A worst-case second of four cameras.
//!
//! 100 pictures of 135 units, every block 4 by 4. The lowest units have 56 of their 128 lines
//! inside the picture and so 448 rows, all others 1,024.

use std::hint::black_box;
use std::time::Instant;

use colwythar::{Session, Settings};
use samples::{Rng, Style};

use crate::classes::{Unit, RECORDER, ROOM};
use crate::work::Side;

const UNITS: u64 = 135;
const PICTURES: usize = 100;
const ROUNDS: usize = 7;

/// Different pictures, used in turn.
const DIFFERENT: usize = 4;

type Picture = Vec<Unit>;

/// A way to read a whole picture into a lent row buffer.
type Read = fn(&Picture, &mut [u8]);

/// Prints the time of the second for all sides.
pub fn print_second() {
    let mut rng = Rng::new(5);
    let mut unit = |address| Unit::grow(&mut rng, RECORDER, address, Style::Smallest);
    let mut picture = || (0..UNITS).map(&mut unit).collect::<Picture>();
    let pictures: Vec<Picture> = (0..DIFFERENT).map(|_| picture()).collect();
    let rows: usize = pictures[0].iter().map(Unit::row_count).sum();
    let best = measure(&pictures);
    println!(
        "\nA worst-case second of four cameras: {PICTURES} pictures of {UNITS} units, {rows} rows"
    );
    println!(
        "in a picture, through session calls; for each picture the best of {ROUNDS} rounds.\n"
    );
    println!("| side | milliseconds | share of a core | side/engine |");
    println!("|---|--:|--:|--:|");
    for (side, time) in Side::ALL.into_iter().zip(best) {
        let (share, ratio) = (time / 10.0, time / best[0]);
        println!("| {} | {time:.1} | {share:.1} % | {ratio:.2} |", side.name());
    }
}

/// Milliseconds of each side: the best rounds of all pictures together, after a warm-up. The
/// sides take turns at each picture.
fn measure(pictures: &[Picture]) -> [f64; 3] {
    let sides: [Read; 3] = [engine, h266, tuned];
    let mut buffer = vec![0; ROOM];
    for read in sides {
        pictures.iter().for_each(|picture| read(picture, &mut buffer));
    }
    let mut best = [[f64::MAX; PICTURES]; 3];
    for _ in 0..ROUNDS {
        for (at, picture) in pictures.iter().cycle().take(PICTURES).enumerate() {
            for (best, &read) in best.iter_mut().zip(&sides) {
                best[at] = best[at].min(time(picture, read, &mut buffer));
            }
        }
    }
    best.map(|times| times.iter().sum())
}

/// Milliseconds of one picture.
fn time(picture: &Picture, read: Read, buffer: &mut [u8]) -> f64 {
    let start = Instant::now();
    read(black_box(picture), buffer);
    start.elapsed().as_secs_f64() * 1e3
}

fn engine(picture: &Picture, buffer: &mut [u8]) {
    let mut session = Session::open(Settings::from(RECORDER)).expect("valid settings");
    for unit in picture {
        session.unit(unit.address, &unit.flags, black_box(buffer)).expect("a legal unit");
    }
    assert!(session.is_complete());
}

fn h266(picture: &Picture, buffer: &mut [u8]) {
    let mut due = 0;
    assert_eq!(h266::open(&RECORDER, &mut due), (0, 0));
    for unit in picture {
        let answer = h266::unit(&RECORDER, &mut due, unit.address, &unit.flags, black_box(buffer));
        assert_eq!(answer.0, 0, "a legal unit");
    }
    assert_eq!(due, UNITS);
}

fn tuned(picture: &Picture, buffer: &mut [u8]) {
    let mut due = 0;
    assert_eq!(h266::open(&RECORDER, &mut due), (0, 0));
    for unit in picture {
        let answer = tuned::unit(&RECORDER, &mut due, unit.address, &unit.flags, black_box(buffer));
        assert_eq!(answer.0, 0, "a legal unit");
    }
    assert_eq!(due, UNITS);
}
