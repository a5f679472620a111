//! The speed of the engine beside that of unproved decoders, in one run: `h266` and `h265`, plain safe
//! Rust from the standards' texts, and `tuned`, safe Rust driven by hand.
//!
//! `bench` prints Markdown tables; `bench callgrind ...` runs one kind of call without a clock, so
//! that its instructions can be counted; `bench search ...` looks for broken tables that take the
//! engine long to refuse. `bench --help` explains all three.
#![forbid(unsafe_code)]

mod broken;
mod callgrind;
mod camera;
mod classes;
mod grants;
mod quads;
mod search;
mod timing;
mod work;

use std::process::ExitCode;

const HELP: &str = "\
usage: bench
       bench callgrind WORK CLASS CALLS
       bench search SECONDS SEED

Without arguments: times reading, the way back, the page, the comparison and the grant for five
classes of units, the refusal of broken tables, a worst-case second of four cameras, and units in
H.265, and prints Markdown tables. Each side is warmed up; the sides take turns within each round,
and the best round counts.

callgrind: makes CALLS calls of one kind, without a clock. WORK is a side (engine, h266 or
tuned) and a way (read, write, page or compare), like engine-read; tuned has no page and no compare.
The engine also has unit, grant4 and grant8: the unit call, and granted by a bank of 4 or 8 cameras.
CLASS is 1, mixed, 64, 1024 or quads. In H.265 a side is engine or h265, a way read or write, and
CLASS h265-1 or h265-64. Calls go round the 256 units of the class, so a multiple of 256 weighs them
equally.
To count only the instructions of the calls:

  valgrind --tool=callgrind --callgrind-out-file=/dev/null \\
      --toggle-collect='*measured_calls*' bench callgrind engine-read 1024 256

and divide the figure `Collected` by CALLS. The loop itself adds about twenty instructions a call.
Valgrind counts one instruction for each byte that is cleared; callgrind_annotate shows them under
memset, so that they can be taken off.

search: changes trees and faults at random, for so many seconds, and prints those whose tables lead
a model of the engine's search through the most nodes, with their settings, faults and flags.
";

fn main() -> ExitCode {
    let arguments: Vec<String> = std::env::args().skip(1).collect();
    let arguments: Vec<&str> = arguments.iter().map(String::as_str).collect();
    match arguments[..] {
        [] => {
            timing::print_table();
            timing::print_pages();
            timing::print_comparisons();
            grants::print_table();
            broken::print_refusals();
            camera::print_second();
            quads::print_table();
            ExitCode::SUCCESS
        }
        ["callgrind", work, class, calls] => match callgrind::run(work, class, calls) {
            Some(()) => ExitCode::SUCCESS,
            None => usage(),
        },
        ["search", seconds, seed] => match search::run(seconds, seed) {
            Some(()) => ExitCode::SUCCESS,
            None => usage(),
        },
        ["--help" | "-h"] => {
            print!("{HELP}");
            ExitCode::SUCCESS
        }
        _ => usage(),
    }
}

fn usage() -> ExitCode {
    eprint!("{HELP}");
    ExitCode::FAILURE
}
