//! H.265: random settings, valid ones and ones for each refusal, and random trees.

use h265::{Params, Settings, MAX_FLAGS};

use crate::settings::{bad_picture_side, bad_side, picture_side, side};
use crate::{trees, Rng};

/// The refusals of settings, in the order of the checks.
pub const FAULTS: [usize; 4] = [34, 35, 7, 8];

/// Settings that pass all checks.
pub fn valid(rng: &mut Rng) -> Settings {
    let ctu = rng.pick(&[16, 32, 64]);
    let min_cb = if rng.percent(50) { 8 } else { side(rng, 8, ctu) };
    let [width, height] = [0; 2].map(|_| picture_side(rng, ctu, min_cb));
    [ctu, min_cb, width, height]
}

/// Settings that are damaged so that the refusal at this place of [`FAULTS`] comes first. Later fields
/// may be damaged as well.
pub fn invalid(rng: &mut Rng, fault: usize) -> Settings {
    let mut s = valid(rng);
    s[fault] = match fault {
        0 => rng.pick(&[0, 1, 4, 8, 15, 17, 31, 48, 65, 128, 256, 1 << 31, u32::MAX]),
        1 => bad_side(rng, 8, s[0]),
        _ => bad_picture_side(rng, s[1]),
    };
    if rng.percent(30) {
        let later = fault + rng.below(s.len() - fault);
        s[later] = rng.pick(&[0, 3, 1 << 20, u32::MAX, s[later]]);
    }
    s
}

/// The same picture with another CTU side, smallest side, width or height; it passes all checks.
pub fn neighbour(rng: &mut Rng, settings: &Settings) -> Settings {
    loop {
        let mut other = *settings;
        match rng.below(4) {
            0 => other[0] = side(rng, 16, 64),
            1 => other[1] = side(rng, 8, 64),
            picture => other[picture] = picture_side(rng, settings[0], settings[1]),
        }
        if Params::new(&other).is_ok() {
            return other;
        }
    }
}

/// Of 100 flags, so many are 1: shallow trees, deep ones, and smallest blocks only.
pub const STYLES: [usize; 5] = [10, 30, 60, 90, 100];

/// The flags of a random tree of this unit, with so many of 100 set. They are drawn without any rule,
/// and the reader says where they end.
///
/// # Panics
///
/// Where the settings are refused or there is no such unit.
pub fn flags(settings: &Settings, address: u64, rng: &mut Rng, ones: usize) -> Vec<u8> {
    let mut drawn: Vec<u8> = (0..=MAX_FLAGS).map(|_| u8::from(rng.percent(ones))).collect();
    match h265::read_unit(settings, address, &drawn, &mut []) {
        (13, end) => drawn.truncate(end as usize),
        other => panic!("{settings:?}, unit {address}, answered {other:?}"),
    }
    drawn
}

/// The rows of a tree of this unit that goes by other rules: H.266's, with binary and ternary splits and
/// blocks of 4 by 4, or those of another picture. By chance it may be legal.
///
/// # Panics
///
/// Where the settings are refused or there is no such unit.
pub fn lawless_rows(settings: &Settings, address: u64, rng: &mut Rng) -> Vec<u8> {
    let [ctu, min_cb, width, height] = *settings;
    if ctu > 16 && rng.percent(50) {
        let cuts = [ctu, 4, min_cb, 3, ctu, ctu, width, height];
        return trees::lawless_rows(&cuts, address, rng);
    }
    let other = loop {
        let other = neighbour(rng, settings);
        if Params::new(&other).is_ok_and(|params| address < params.unit_count()) {
            break other;
        }
    };
    let ones = rng.pick(&STYLES);
    let flags = flags(&other, address, rng, ones);
    let mut rows = vec![0; 8 * h265::MAX_ROWS];
    let (_, count) = h265::read_unit(&other, address, &flags, &mut rows);
    rows.truncate(8 * count as usize);
    rows
}
