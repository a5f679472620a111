//! Comparisons of the engine beside those of `h266`.

use differential::{comparisons, Coding, Entry};
use h266::Settings;
use samples::paper::{examples, Example};
use samples::relatives::Change;
use samples::{broken, hardest, trees, Rng, Style};

use crate::H266;

/// As many row bytes as any unit needs.
const ROOM: usize = 8_192;

/// Trees of random units before and after each change, at edges too.
#[test]
fn trees_that_one_change_tells_apart() {
    let (mut engine, mut rng) = (H266::default(), Rng::new(117));
    let mut times = [0; Change::ALL.len()];
    for _ in 0..8_000 {
        let settings = Settings::valid(&mut rng);
        let address = rng.draw() % settings.unit_count();
        for (change, times) in Change::ALL.into_iter().zip(&mut times) {
            let pair = comparisons::changed(&mut engine, &mut rng, &settings, address, change);
            *times += usize::from(pair);
        }
    }
    println!("{times:?}\n{}", engine.tally);
    assert!(times.iter().all(|&times| times >= 1_500), "{times:?}");
    assert!(engine.tally.finer().iter().all(|&times| times >= 500), "{}", engine.tally);
}

/// Trees of random units before, between and after every two changes: each pair in both orders, and the
/// laws of finer.
#[test]
fn trees_that_two_changes_tell_apart() {
    let (mut engine, mut rng) = (H266::default(), Rng::new(122));
    let (mut threes, mut chains) = (0, 0);
    for _ in 0..400 {
        let settings = Settings::valid(&mut rng);
        let address = rng.draw() % settings.unit_count();
        for changes in Change::ALL.into_iter().flat_map(|one| Change::ALL.map(|other| [one, other]))
        {
            let answers =
                comparisons::changed_twice(&mut engine, &mut rng, &settings, address, changes);
            threes += usize::from(answers.is_some());
            chains += answers.map_or(0, |answers| answers.chains());
        }
    }
    println!("{threes} times three tables, {chains} chains\n{}", engine.tally);
    assert!(threes >= 2_500 && chains >= 500, "{threes}, {chains}");
}

/// The paper's tables with every byte changed to every other value, beside the unchanged ones.
#[test]
fn every_change_of_a_byte() {
    let (mut engine, mut rng) = (H266::default(), Rng::new(118));
    for Example { settings, address, rows, .. } in examples() {
        for (at, change) in (0..rows.len()).flat_map(|at| (1..=255).map(move |c| (at, c))) {
            let mut changed = rows.clone();
            changed[at] ^= change;
            let answer = engine.compare(&mut rng, &settings, address, &rows, &changed);
            assert_eq!(answer.0, 16, "{settings:?} {changed:?}");
        }
    }
    // 27 rows of 8 bytes, in both orders.
    assert_eq!(engine.tally.of(Entry::Compare, 16), 2 * 27 * 8 * 255);
}

/// The paper's tables cut after each byte and gone on by each number of bytes, in each place and in both.
#[test]
fn lengths() {
    let (mut engine, mut rng) = (H266::default(), Rng::new(119));
    for Example { settings, address, rows, .. } in examples() {
        let (whole, longer) = (rows.len(), rows.repeat(4));
        for end in 0..whole + 20 {
            let (number, place) = match end {
                _ if end % 8 != 0 => (15, end / 8),
                _ if end < whole => (27, end / 8),
                _ if end > whole => (28, whole / 8),
                _ => (0, 0),
            };
            for other in [&rows, &longer[..end]] {
                let answer = engine.compare(&mut rng, &settings, address, &longer[..end], other);
                assert_eq!(answer, (number, place as u64), "{settings:?} {end}");
            }
        }
    }
}

/// The table of 128 by 128 in blocks of 4 by 4, by random cuts, or by quads where there are no cuts.
fn full(rng: &mut Rng, settings: &Settings) -> Vec<u8> {
    let flags = trees::flags(settings, 0, rng, Style::Smallest);
    let mut rows = vec![0; ROOM];
    assert_eq!(h266::read_unit(settings, 0, &flags, &mut rows), (0, 1_024));
    rows
}

/// Tables of the same 1,024 blocks in other orders; and with four blocks joined, at each place in turn.
#[test]
fn tables_of_1024_rows() {
    let (mut engine, mut rng) = (H266::default(), Rng::new(120));
    let settings = [128, 4, 8, 10, 128, 64, 128, 128];
    let [first, second] = [0; 2].map(|_| full(&mut rng, &settings));
    assert_ne!(first, second);
    assert_eq!(engine.compare(&mut rng, &settings, 0, &first, &second), (0, 0));
    let quads = [128, 4, 4, 0, 128, 64, 128, 128];
    let smallest = full(&mut rng, &quads);
    for row in (0..1_024).step_by(4) {
        let mut whole = smallest[8 * row..8 * row + 8].to_vec();
        // A side of 8, one quad split less.
        (whole[4], whole[5], whole[6]) = (3, 3, 4);
        let joined = [&smallest[..8 * row], &whole, &smallest[8 * row + 32..]].concat();
        assert_eq!(engine.compare(&mut rng, &quads, 0, &smallest, &joined), (0, 1), "{row}");
    }
}

/// Broken at its end, in each place and in both; and more rows than any unit has.
#[test]
fn the_hardest_table() {
    let (mut engine, mut rng) = (H266::default(), Rng::new(121));
    let (settings, broken) = (hardest::SETTINGS, hardest::rows());
    let whole = full(&mut rng, &settings);
    for other in [&whole, &broken, &broken::at_end(&whole)] {
        let answer = engine.compare(&mut rng, &settings, 0, &broken, other);
        assert_eq!(answer, (16, 1_023));
    }
    for times in [2, 3] {
        let longer = whole.repeat(times);
        assert_eq!(engine.compare(&mut rng, &settings, 0, &whole, &longer), (28, 1_024));
        assert_eq!(engine.compare(&mut rng, &settings, 0, &longer, &broken), (28, 1_024));
        assert_eq!(engine.compare(&mut rng, &settings, 0, &broken, &longer), (16, 1_023));
    }
}
