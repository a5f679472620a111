//! How long a broken table takes: the search for where it stops being a tree comes on top of the
//! way back that fails.

use std::hint::black_box;
use std::time::Instant;

use colwythar::raw;
use h266::Settings;
use samples::{broken, hardest, Rng, Style};

use crate::classes::{Unit, RECORDER, ROOM};

/// Calls, of which the fastest counts.
const CALLS: usize = 1_000;

/// A table whose last row is broken, of the unit at the address 0.
struct Broken {
    title: &'static str,
    settings: Settings,
    rows: Vec<u8>,
}

/// The way back of such a table on one side.
type Call = fn(&Broken, &mut [u8]) -> (u64, u64);

const SIDES: [Call; 2] = [
    |table, lent| raw::write_flags(&table.settings, 0, &table.rows, lent).into(),
    |table, lent| h266::write_flags(&table.settings, 0, &table.rows, lent),
];

/// Prints a line for each table.
pub fn print_refusals() {
    println!("\nThe refusal of a table whose last row is broken: microseconds, best of {CALLS}");
    println!("calls, the sides in turn.\n");
    println!("| table | rows | engine | h266 | h266/engine |");
    println!("|---|--:|--:|--:|--:|");
    for table in [cuts(), worst()] {
        let [engine, h266] = measure(&table);
        let rows = table.rows.len() / 8;
        let ratio = h266 / engine;
        println!("| {} | {rows} | {engine:.1} | {h266:.1} | {ratio:.2} |", table.title);
    }
}

/// A unit of the recorder in blocks of 4 by 4, by random cuts.
fn cuts() -> Broken {
    let whole = Unit::grow(&mut Rng::new(6), RECORDER, 0, Style::Smallest).rows;
    Broken { title: "random cuts", settings: RECORDER, rows: broken::at_end(&whole) }
}

/// The hardest that was found.
fn worst() -> Broken {
    Broken { title: "the hardest found", settings: hardest::SETTINGS, rows: hardest::rows() }
}

/// Microseconds of each side.
fn measure(table: &Broken) -> [f64; 2] {
    let last = table.rows.len() as u64 / 8 - 1;
    let mut lent = vec![0; ROOM];
    let mut best = [f64::MAX; 2];
    for _ in 0..CALLS {
        for (best, side) in best.iter_mut().zip(SIDES) {
            let start = Instant::now();
            let answer = side(black_box(table), black_box(&mut lent));
            *best = best.min(start.elapsed().as_secs_f64() * 1e6);
            assert_eq!(answer, (16, last), "a broken table: {}", table.title);
        }
    }
    best
}
