//! Pairs of tables of a unit: of independent trees, of trees that one change tells apart, and with
//! tables that are refused; and three tables of trees that two changes tell apart. Of a coding without
//! comparisons nothing is compared.

use samples::relatives::Change;
use samples::Rng;

use crate::calls::{legal, Unit};
use crate::{Answers, Coding, Engine};

/// Compares two tables, where the coding has comparisons.
pub fn beside<S: Coding>(
    engine: &mut Engine<S>,
    rng: &mut Rng,
    settings: &S,
    address: u64,
    first: &[u8],
    second: &[u8],
) {
    if !S::COMPARISONS.is_empty() {
        engine.compare(rng, settings, address, first, second);
    }
}

/// The table of a legal unit beside itself, beside an empty one, and beside that of an independent tree;
/// and a tree before and after each change; for one unit in four, also before, between and after two.
pub(crate) fn others<S: Coding>(engine: &mut Engine<S>, rng: &mut Rng, unit: &Unit<S>) {
    if S::COMPARISONS.is_empty() {
        return;
    }
    let Unit { settings, address, rows, .. } = unit;
    assert_eq!(engine.compare(rng, settings, *address, rows, rows), (0, 0), "{settings:?}");
    assert_eq!(engine.compare(rng, settings, *address, rows, &[]), (27, 0), "{settings:?}");
    let flags = settings.any_flags(*address, rng);
    let other = legal(engine, rng, *settings, *address, flags).rows;
    engine.compare(rng, settings, *address, rows, &other);
    for change in Change::ALL {
        changed(engine, rng, settings, *address, change);
    }
    if rng.percent(25) {
        let changes = [0; 2].map(|_| rng.pick(&Change::ALL));
        changed_twice(engine, rng, settings, *address, changes);
    }
}

/// The tables of a random tree before and after a change; as far as the change says which is finer,
/// the answer is asserted. Answers whether the tree could be changed so.
pub fn changed<S: Coding>(
    engine: &mut Engine<S>,
    rng: &mut Rng,
    settings: &S,
    address: u64,
    change: Change,
) -> bool {
    let Some(tables) = settings.related(address, rng, &[change]) else { return false };
    let [first, second] = &tables[..] else { panic!("two tables") };
    let (number, finer) = engine.compare(rng, settings, address, first, second);
    let expected = change.answer().unwrap_or(finer);
    assert_eq!((number, finer), (0, expected), "{change:?}: {settings:?} {first:?} {second:?}");
    true
}

/// The tables of a random tree before two changes, between them and after them, each compared with each;
/// as far as the changes say which of the first and the last is finer, the answer is asserted. Answers
/// nothing where the tree could not be changed so.
pub fn changed_twice<S: Coding>(
    engine: &mut Engine<S>,
    rng: &mut Rng,
    settings: &S,
    address: u64,
    [one, other]: [Change; 2],
) -> Option<Answers> {
    let tables = settings.related(address, rng, &[one, other])?;
    let tables: Vec<&[u8]> = tables.iter().map(Vec::as_slice).collect();
    let answers = Answers::of(engine, rng, settings, address, &tables);
    let expected = one.answer_with(other).or(answers.first_and_last());
    assert_eq!(answers.first_and_last(), expected, "{one:?}, {other:?}: {settings:?} {tables:?}");
    Some(answers)
}
