//! Comparing two tables; the answers were worked out by hand.

use colwythar::{compare, read_unit, Finer, Refusal, Settings};

use crate::paper::{table, Fields, P2};
use crate::A;

/// A unit of 32 by 32 with all splits.
const UNIT: Settings = Settings { ctu: 32, width: 32, height: 32, ..A };

const P1: [Fields; 1] = [(0, 0, 6, 6, 0, 0)];

const WHOLE: [Fields; 1] = [(0, 0, 5, 5, 0, 0)];

/// Halves one above the other, and side by side.
const ABOVE: [Fields; 2] = [(0, 0, 5, 4, 0, 1), (0, 16, 5, 4, 0, 1)];
const BESIDE: [Fields; 2] = [(0, 0, 4, 5, 0, 1), (16, 0, 4, 5, 0, 1)];

/// A quarter, a half and a quarter, side by side.
const TERNARY: [Fields; 3] = [(0, 0, 3, 5, 0, 1), (8, 0, 4, 5, 0, 1), (24, 0, 3, 5, 0, 1)];

/// Quarters by a quad split, by halves above each other first, and by halves beside each other first.
const QUAD: [Fields; 4] =
    [(0, 0, 4, 4, 1, 0), (16, 0, 4, 4, 1, 0), (0, 16, 4, 4, 1, 0), (16, 16, 4, 4, 1, 0)];
const LINES: [Fields; 4] =
    [(0, 0, 4, 4, 0, 2), (16, 0, 4, 4, 0, 2), (0, 16, 4, 4, 0, 2), (16, 16, 4, 4, 0, 2)];
const COLUMNS: [Fields; 4] =
    [(0, 0, 4, 4, 0, 2), (0, 16, 4, 4, 0, 2), (16, 0, 4, 4, 0, 2), (16, 16, 4, 4, 0, 2)];

/// Asserts the answer to two tables, and its mirror image.
fn check(settings: &Settings, address: u64, first: &[Fields], second: &[Fields], finer: Finer) {
    let (first, second) = (table(first), table(second));
    assert_eq!(compare(settings, address, &first, &second), Ok(finer));
    let mirrored = match finer {
        Finer::First => Finer::Second,
        Finer::Second => Finer::First,
        Finer::Equal | Finer::Neither => finer,
    };
    assert_eq!(compare(settings, address, &second, &first), Ok(mirrored));
    assert_eq!(finer.mirrored(), mirrored);
}

#[test]
fn equal_blocks() {
    for first in [QUAD, LINES, COLUMNS] {
        for second in [QUAD, LINES, COLUMNS] {
            check(&UNIT, 0, &first, &second, Finer::Equal);
        }
    }
    check(&UNIT, 0, &WHOLE, &WHOLE, Finer::Equal);
}

#[test]
fn finer_tables() {
    check(&A, 0, &P1, &P2, Finer::Second);
    for half in [ABOVE, BESIDE] {
        check(&UNIT, 0, &WHOLE, &half, Finer::Second);
        for quarters in [QUAD, LINES, COLUMNS] {
            check(&UNIT, 0, &quarters, &half, Finer::First);
            check(&UNIT, 0, &quarters, &WHOLE, Finer::First);
        }
    }
    check(&UNIT, 0, &TERNARY, &WHOLE, Finer::First);
}

#[test]
fn neither_is_finer() {
    check(&UNIT, 0, &ABOVE, &BESIDE, Finer::Neither);
    check(&UNIT, 0, &TERNARY, &BESIDE, Finer::Neither);
    check(&UNIT, 0, &TERNARY, &QUAD, Finer::Neither);
}

/// P5's unit, of which 8 columns lie in the picture: 32, 16, 8 and 8 lines, or others.
#[test]
fn a_unit_at_the_edge() {
    let settings = Settings { width: 72, ..A };
    let p5 =
        [(64, 0, 3, 5, 1, 2), (64, 32, 3, 4, 2, 1), (64, 48, 3, 3, 3, 0), (64, 56, 3, 3, 3, 0)];
    let coarser = [p5[0], (64, 32, 3, 5, 1, 2)];
    let other = [p5[0], (64, 32, 3, 3, 3, 0), (64, 40, 3, 3, 3, 0), (64, 48, 3, 4, 2, 1)];
    check(&settings, 1, &p5, &p5, Finer::Equal);
    check(&settings, 1, &p5, &coarser, Finer::First);
    check(&settings, 1, &p5, &other, Finer::Neither);
}

/// Asserts that two tables are refused so.
fn refused(settings: &Settings, address: u64, first: &[u8], second: &[u8], refusal: Refusal) {
    let answer = compare(settings, address, first, second);
    assert_eq!(answer, Err(refusal), "{first:?} {second:?}");
}

/// The settings' and the address's refusals, then the first table's, then the second's.
#[test]
fn refusals_in_order() {
    let (whole, quad) = (table(&WHOLE), table(&QUAD));
    let long = [&whole[..], &quad].concat();
    let tables: [(&[u8], u64, u64); 5] = [
        (&[], 27, 0),
        (&quad[..31], 15, 3),
        (&quad[..24], 27, 3),
        (&long, 28, 1),
        (&quad[8..], 16, 0),
    ];
    for (table, number, place) in tables {
        let refusal = Refusal { number, place };
        refused(&UNIT, 0, &whole, table, refusal);
        refused(&UNIT, 0, table, &whole, refusal);
        tables.iter().for_each(|(other, ..)| refused(&UNIT, 0, table, other, refusal));
        for other in [&whole[..], table] {
            let refusal = |number| Refusal { number, place: 0 };
            refused(&Settings { ctu: 48, ..UNIT }, 0, other, table, refusal(1));
            refused(&Settings { width: 36, ..UNIT }, 7, table, other, refusal(7));
            refused(&UNIT, 1, other, table, refusal(10));
            refused(&UNIT, u64::MAX, table, other, refusal(10));
        }
    }
}

/// The 1,024 smallest blocks of the largest unit beside themselves, one block, and a table that goes on.
#[test]
fn the_most_rows() {
    let settings = Settings::from([128, 4, 4, 0, 128, 64, 128, 128]);
    let mut rows = [0; 8 * 1_024];
    assert_eq!(read_unit(&settings, 0, &[1; 341], &mut rows), Ok(1_024));
    let whole = table(&[(0, 0, 7, 7, 0, 0)]);
    assert_eq!(compare(&settings, 0, &rows, &rows), Ok(Finer::Equal));
    assert_eq!(compare(&settings, 0, &rows, &whole), Ok(Finer::First));
    let longer = [&rows[..], &rows[..8]].concat();
    refused(&settings, 0, &longer, &longer[..8], Refusal { number: 28, place: 1_024 });
    refused(&settings, 0, &whole, &longer, Refusal { number: 28, place: 1_024 });
}

/// In the order of their numbers.
const ANSWERS: [Finer; 4] = [Finer::Equal, Finer::First, Finer::Second, Finer::Neither];

#[test]
fn words() {
    let words = ANSWERS.map(|finer| finer.to_string());
    assert_eq!(words, ["equal blocks", "first finer", "second finer", "neither finer"]);
}

#[test]
fn finer_or_equal() {
    assert_eq!(ANSWERS.map(Finer::first_is_finer_or_equal), [true, true, false, false]);
}
