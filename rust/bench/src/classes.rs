//! The classes of units that are timed, 256 units in each.

use samples::{settings, trees, Rng, Style};

/// How many units a class has, so that no single pattern of branches is learnt.
const UNITS: usize = 256;

/// Room for the rows or flags of any unit.
pub const ROOM: usize = 8_192;

/// The recorder's settings: 1920 by 1080, CTU 128, smallest blocks 4 by 4, all depths open.
pub const RECORDER: h266::Settings = [128, 4, 8, 10, 128, 64, 1920, 1080];

/// The same picture with quad splits only, down to 4 by 4.
const QUADS: h266::Settings = [128, 4, 4, 0, 128, 64, 1920, 1080];

/// The first units of this picture; they lie inside it.
const INSIDE: u64 = 120;

/// One unit with its flags and rows.
pub struct Unit<S = h266::Settings> {
    pub settings: S,
    pub address: u64,
    pub flags: Vec<u8>,
    pub rows: Vec<u8>,
    /// The rows to compare its own with, where they are compared.
    pub other: Vec<u8>,
}

impl Unit {
    /// A random tree of this unit.
    pub fn grow(rng: &mut Rng, settings: h266::Settings, address: u64, style: Style) -> Self {
        let flags = trees::flags(&settings, address, rng, style);
        let mut rows = vec![0; ROOM];
        let (number, count) = h266::read_unit(&settings, address, &flags, &mut rows);
        assert_eq!(number, 0, "a legal tree");
        rows.truncate(8 * count as usize);
        Self { settings, address, flags, rows, other: Vec::new() }
    }

    /// The rows of another tree of this unit, of one of these styles; there are as many, but for an
    /// eighth of them.
    fn grow_other(&self, rng: &mut Rng, styles: &[Style]) -> Vec<u8> {
        loop {
            let style = rng.pick(styles);
            let other = Self::grow(rng, self.settings, self.address, style);
            if 8 * other.row_count().abs_diff(self.row_count()) <= self.row_count() {
                return other.rows;
            }
        }
    }

    /// Does all of it lie inside the picture?
    fn is_inside(&self) -> bool {
        let params = h266::Params::new(&self.settings).expect("valid settings");
        params.root(self.address).is_some_and(|root| params.inside(&root))
    }
}

impl<S> Unit<S> {
    /// How many rows it has.
    pub fn row_count(&self) -> usize {
        self.rows.len() / 8
    }
}

/// A class of units.
pub struct Class<S = h266::Settings> {
    pub name: &'static str,
    pub title: &'static str,
    pub units: Vec<Unit<S>>,
}

impl<S> Class<S> {
    /// A class of units that are made one after the other.
    pub fn of(name: &'static str, title: &'static str, mut unit: impl FnMut() -> Unit<S>) -> Self {
        Self { name, title, units: (0..UNITS).map(|_| unit()).collect() }
    }

    /// How many rows a unit has, in the mean.
    pub fn mean_rows(&self) -> f64 {
        let rows: usize = self.units.iter().map(Unit::row_count).sum();
        rows as f64 / self.units.len() as f64
    }
}

impl Class {
    /// The same units, with rows to compare theirs with, of trees of these styles.
    fn with_others(mut self, styles: &[Style]) -> Self {
        let mut rng = Rng::new(8);
        for unit in &mut self.units {
            unit.other = unit.grow_other(&mut rng, styles);
        }
        self
    }
}

/// All classes, with fixed seeds.
pub fn all() -> [Class; 5] {
    [one_row(), mixed(), about_64(), full(), quads()]
}

/// Units wholly inside the picture that are one block, though they might have been split: one flag,
/// which is 0. CTU 128 and 64.
fn one_row() -> Class {
    let mut rng = Rng::new(1);
    Class::of("1", "one row", || {
        random(&mut rng, &[Style::Shallow], |unit| {
            unit.settings[0] >= 64 && unit.is_inside() && unit.flags == [0]
        })
    })
    .with_others(&[Style::Shallow])
}

/// Random units of 20 to 120 rows, all settings and edges mixed.
fn mixed() -> Class {
    let mut rng = Rng::new(2);
    Class::of("mixed", "20 to 120 rows", || {
        random(&mut rng, &Style::ALL, |unit| (20..=120).contains(&unit.row_count()))
    })
    .with_others(&Style::ALL)
}

/// Random units of 56 to 72 rows.
fn about_64() -> Class {
    let mut rng = Rng::new(3);
    Class::of("64", "about 64 rows", || {
        random(&mut rng, &Style::ALL, |unit| (56..=72).contains(&unit.row_count()))
    })
    .with_others(&Style::ALL)
}

/// Units of the recorder that are all blocks of 4 by 4, by different trees, and so are those that they
/// are compared with.
fn full() -> Class {
    let mut rng = Rng::new(4);
    Class::of("1024", "1,024 rows", || {
        let address = rng.draw() % INSIDE;
        let unit = Unit::grow(&mut rng, RECORDER, address, Style::Smallest);
        assert_eq!(unit.row_count(), 1024);
        unit
    })
    .with_others(&[Style::Smallest])
}

/// Units that are all blocks of 4 by 4 by quad splits alone: 341 flags of 1. They differ in their
/// address only, and are compared with the same rows.
fn quads() -> Class {
    let mut rng = Rng::new(5);
    Class::of("quads", "1,024 rows by quads", || {
        let address = rng.draw() % INSIDE;
        let unit = Unit::grow(&mut rng, QUADS, address, Style::Smallest);
        assert_eq!((unit.row_count(), unit.flags.as_slice()), (1024, &[1; 341][..]));
        unit
    })
    .with_others(&[Style::Smallest])
}

/// The same units, compared with their rows but for the last four blocks, which are joined.
pub fn near_quads() -> Class {
    let mut class = Class { title: "1,024 beside 1,021 by quads", ..quads() };
    for unit in &mut class.units {
        let (before, last) = unit.rows.split_at(8 * 1_020);
        // A side of 8, one quad split less.
        let joined = [&last[..4], &[3, 3, 4, 0]].concat();
        unit.other = [before, &joined].concat();
    }
    class
}

/// Random units until one is wanted.
fn random(rng: &mut Rng, styles: &[Style], wanted: impl Fn(&Unit) -> bool) -> Unit {
    loop {
        let settings = settings::valid(rng);
        let units = h266::Params::new(&settings).expect("valid settings").unit_count();
        let (address, style) = (rng.draw() % units, rng.pick(styles));
        let unit = Unit::grow(rng, settings, address, style);
        if wanted(&unit) {
            return unit;
        }
    }
}
