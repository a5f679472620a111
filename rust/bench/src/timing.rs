//! The tables: all sides in turn, the best of several rounds.

use std::time::{Duration, Instant};

use crate::classes::{self, Class};
use crate::work::{Buffer, Side, Way, Work};

/// Rounds, of which the best counts.
const ROUNDS: usize = 40;

/// The least time of one side in a round, so that the clock's own step does not count.
const ROUND_TIME: Duration = Duration::from_millis(5);

/// Prints a line for each class and way.
pub fn print_table() {
    println!("Nanoseconds, best of {ROUNDS} rounds; buffers are reused and not cleared.\n");
    print!("| units | way | rows |");
    for side in Side::ALL {
        print!(" {0}, unit | {0}, row |", side.name());
    }
    println!(" h266/engine | tuned/engine |");
    println!("|---|---|--:|--:|--:|--:|--:|--:|--:|--:|--:|");
    for class in classes::all() {
        for way in [Way::Read, Way::Write] {
            print_line(&class, way);
        }
    }
}

fn print_line(class: &Class, way: Way) {
    let rows = class.mean_rows();
    let times = measure(class, Side::ALL.map(|side| work(side, way)));
    print!("| {} | {} | {rows:.1} |", class.title, way.title());
    for time in times {
        print!(" {time:.1} | {:.2} |", time / rows);
    }
    let [engine, h266, tuned] = times;
    println!(" {:.2} | {:.2} |", h266 / engine, tuned / engine);
}

/// Prints a line for each class: the pages of its rows.
pub fn print_pages() {
    println!("\nThe page of the same rows; nanoseconds, as above.\n");
    print_beside_back(Way::Page);
}

/// Prints a line for each class: its rows compared with others of the same units.
pub fn print_comparisons() {
    println!(
        "\nThe same rows compared with those of another tree of the unit, of about as many; one"
    );
    println!("row and the rows by quads with themselves, where one test is enough; and by quads with four");
    println!("blocks joined. Nanoseconds, as above.\n");
    print_beside_back(Way::Compare);
    print_line_beside_back(&classes::near_quads(), Way::Compare);
}

/// A way that `tuned` does not have, beside the engine's way back of the same rows.
fn print_beside_back(way: Way) {
    print!("| units | rows | engine, unit | engine, row | h266, unit | h266, row |");
    println!(" h266/engine | engine's {}/way back |", way.title());
    println!("|---|--:|--:|--:|--:|--:|--:|--:|");
    for class in classes::all() {
        print_line_beside_back(&class, way);
    }
}

fn print_line_beside_back(class: &Class, way: Way) {
    let rows = class.mean_rows();
    let (engine, h266) = (work(Side::Engine, way), work(Side::H266, way));
    let [back, engine, h266] = measure(class, [work(Side::Engine, Way::Write), engine, h266]);
    print!("| {} | {rows:.1} |", class.title);
    for time in [engine, h266] {
        print!(" {time:.1} | {:.2} |", time / rows);
    }
    println!(" {:.2} | {:.2} |", h266 / engine, engine / back);
}

fn work(side: Side, way: Way) -> Work {
    Work::of(side, way).expect("a way of this side")
}

/// Nanoseconds of a unit for each kind of call, after a warm-up.
pub fn measure<S, const N: usize>(class: &Class<S>, works: [Work<S>; N]) -> [f64; N] {
    let passes = works.each_ref().map(|work| warm_up(class, work));
    let mut best = [f64::MAX; N];
    for _ in 0..ROUNDS {
        for kind in 0..N {
            best[kind] = best[kind].min(time(class, passes[kind], &works[kind]));
        }
    }
    best
}

/// Calls for the time of a round, and answers how many passes that took.
fn warm_up<S>(class: &Class<S>, work: &Work<S>) -> usize {
    let (start, mut passes) = (Instant::now(), 0);
    while start.elapsed() < ROUND_TIME {
        time(class, 1, work);
        passes += 1;
    }
    passes
}

/// Nanoseconds of a unit over so many passes through the class.
fn time<S>(class: &Class<S>, passes: usize, work: &Work<S>) -> f64 {
    let mut buffer = Buffer::new(work.room);
    let start = Instant::now();
    for _ in 0..passes {
        class.units.iter().for_each(|unit| buffer.lend(work.call, unit));
    }
    start.elapsed().as_nanos() as f64 / (passes * class.units.len()) as f64
}
