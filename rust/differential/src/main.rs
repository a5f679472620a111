//! Millions of comparisons, of each coding: `differential [calls] [seed]`.

use std::process::ExitCode;

use differential::{banks, calls, sessions, Coding, Engine};
use samples::Rng;

const USAGE: &str = "usage: differential [calls of each coding, default 1000000] [seed, default 1]";

/// The argument at this position, or its default.
fn number(position: usize, default: u64) -> Option<u64> {
    match std::env::args().nth(position) {
        Some(text) => text.parse().ok(),
        None => Some(default),
    }
}

fn main() -> ExitCode {
    let (Some(wanted), Some(seed)) = (number(1, 1_000_000), number(2, 1)) else {
        eprintln!("{USAGE}");
        return ExitCode::FAILURE;
    };
    compare::<h266::Settings>("H.266", wanted, seed);
    compare::<h265::Settings>("H.265", wanted, seed);
    ExitCode::SUCCESS
}

/// Makes so many calls of a coding.
fn compare<S: Coding>(name: &str, wanted: u64, seed: u64) {
    let (mut engine, mut rng) = (Engine::<S>::default(), Rng::new(seed));
    let mut rounds = 0u64;
    while engine.tally.calls() < wanted {
        calls::round(&mut engine, &mut rng);
        if rounds.is_multiple_of(8) {
            sessions::picture(&mut engine, &mut rng);
            banks::list(&mut engine, &mut rng);
        }
        rounds += 1;
    }
    println!("{name}: {}, all equal, seed {seed}", engine.tally);
}
