//! Each number has its own sentence.

use std::collections::HashSet;
use std::error::Error;

use colwythar::Refusal;

#[test]
fn all_numbers_differ() {
    let numbers: Vec<u64> = (1..=17).chain(20..=23).chain([27, 28]).chain(34..=38).collect();
    let sentence = |&number: &u64| {
        let refusal: Box<dyn Error> = Box::new(Refusal { number, place: 5 });
        let text = refusal.to_string();
        assert!(text.starts_with(&format!("refusal {number}: ")), "{text}");
        assert!(!text.contains("unknown"), "{text}");
        let (_, sentence) = text.split_once(": ").expect("a sentence");
        sentence.to_string()
    };
    let sentences: HashSet<_> = numbers.iter().map(sentence).collect();
    assert_eq!(sentences.len(), numbers.len());
}

#[test]
fn places_are_named() {
    for number in [11, 12, 13, 14, 15, 16, 17, 21, 23, 27, 28, 36] {
        let text = Refusal { number, place: 4711 }.to_string();
        assert!(text.contains("4711"), "{text}");
    }
}

#[test]
fn sentences_that_say_a_limit_or_a_place() {
    let sentences = [
        (4, 0, "refusal 4: M is above 2 x (exponent of the CTU side - exponent of MinCb)"),
        (9, 0, "refusal 9: M is 0, and the width or the height is no multiple of MinQt"),
        (11, 4, "refusal 11: more flags are needed, there are only 4"),
        (12, 2, "refusal 12: flag 2, counted from 0, is neither 0 nor 1"),
        (13, 5, "refusal 13: too many flags, the first that is too many is flag 5, counted from 0"),
        (16, 2, "refusal 16: row 2, counted from 0, is the first that fits no tree of this unit"),
        (21, 0, "refusal 21: another unit is due, unit 0"),
        (23, 132, "refusal 23: the page is too short, 132 bytes are needed"),
        (27, 3, "refusal 27: the table ends too early, more rows than 3 are needed"),
        (28, 4, "refusal 28: too many rows, the first that is too many is row 4, counted from 0"),
        (34, 0, "refusal 34: the CTU side is not 16, 32 or 64"),
        (35, 0, "refusal 35: MinCb is no power of two from 8 to the CTU side"),
        (36, 7, "refusal 36: only 7 rows could be had for this camera"),
        (37, 0, "refusal 37: the camera has no account"),
        (38, 0, "refusal 38: the shares exceed the limit, or the common part is overdrawn"),
    ];
    for (number, place, sentence) in sentences {
        assert_eq!(Refusal { number, place }.to_string(), sentence);
    }
}
