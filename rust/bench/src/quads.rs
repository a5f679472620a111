//! Units of 64 by 64 in H.265, on the engine and on `h265`.

use colwythar::raw;
use h265::Settings;
use samples::Rng;

use crate::classes::{Class, Unit, ROOM};
use crate::timing::measure;
use crate::work::{Call, Way, Work};

/// 1920 by 1080 with smallest blocks of 8 by 8.
const RECORDER: Settings = [64, 8, 1920, 1080];

/// The first units of this picture; they lie inside it.
const INSIDE: u64 = 480;

/// Prints a line for each class and way.
pub fn print_table() {
    println!("\nUnits of 64 by 64 in H.265; nanoseconds, as above.\n");
    print!("| units | way | rows | engine, unit | engine, row | h265, unit | h265, row |");
    println!(" h265/engine |");
    println!("|---|---|--:|--:|--:|--:|--:|--:|");
    for class in classes() {
        for way in [Way::Read, Way::Write] {
            print_line(&class, way);
        }
    }
}

fn print_line(class: &Class<Settings>, way: Way) {
    let rows = class.mean_rows();
    let works = works(way).expect("a way of H.265").map(|(_, work)| work);
    let [engine, h265] = measure(class, works);
    print!("| {} | {} | {rows:.0} |", class.title, way.title());
    for time in [engine, h265] {
        print!(" {time:.1} | {:.2} |", time / rows);
    }
    println!(" {:.2} |", h265 / engine);
}

/// The classes: one row by one flag, and 64 rows by 21 flags of 1. Their units differ in their address
/// only.
pub fn classes() -> [Class<Settings>; 2] {
    let mut rng = Rng::new(7);
    let mut unit = |flags: &[u8]| unit(rng.draw() % INSIDE, flags);
    [
        Class::of("h265-1", "one row", || unit(&[0])),
        Class::of("h265-64", "64 rows", || unit(&[1; 21])),
    ]
}

/// The unit with these flags.
fn unit(address: u64, flags: &[u8]) -> Unit<Settings> {
    let mut rows = vec![0; ROOM];
    let (number, count) = h265::read_unit(&RECORDER, address, flags, &mut rows);
    assert_eq!(number, 0, "a legal tree");
    rows.truncate(8 * count as usize);
    Unit { settings: RECORDER, address, flags: flags.to_vec(), rows, other: Vec::new() }
}

/// The sides' names and work; there are no pages, comparisons and grants, and unit calls are not timed.
pub fn works(way: Way) -> Option<[(&'static str, Work<Settings>); 2]> {
    let calls: [Call<Settings>; 2] = match way {
        Way::Read => [
            |u, lent| raw::h265::read_unit(&u.settings, u.address, &u.flags, lent).into(),
            |u, lent| h265::read_unit(&u.settings, u.address, &u.flags, lent),
        ],
        Way::Write => [
            |u, lent| raw::h265::write_flags(&u.settings, u.address, &u.rows, lent).into(),
            |u, lent| h265::write_flags(&u.settings, u.address, &u.rows, lent),
        ],
        Way::Page | Way::Compare | Way::Unit | Way::Grant4 | Way::Grant8 => return None,
    };
    let [engine, h265] = calls.map(|call| Work { call, room: way.room() });
    Some([("engine", engine), ("h265", h265)])
}
