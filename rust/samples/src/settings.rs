//! Random settings, valid ones and ones for each refusal.

use crate::Rng;

/// A power of two from `least` to `most`, both powers of two.
pub(crate) fn side(rng: &mut Rng, least: u32, most: u32) -> u32 {
    least << rng.below_u32(most.ilog2() - least.ilog2() + 1)
}

/// A picture side: mostly a few units and every kind of rest, now and then a very long one.
pub(crate) fn picture_side(rng: &mut Rng, ctu: u32, step: u32) -> u32 {
    if rng.percent(3) {
        return rng.pick(&[16_384, 16_384 - step, 16_384 - 64, 8_192 + step]);
    }
    let units = rng.below_u32(3) * ctu;
    let rest = (1 + rng.below_u32(ctu / step)) * step;
    units + rest
}

/// Settings that pass all checks.
pub fn valid(rng: &mut Rng) -> h266::Settings {
    let ctu = rng.pick(&[32, 64, 128]);
    valid_with_ctu(rng, ctu)
}

/// Settings with this CTU side that pass all checks.
pub fn valid_with_ctu(rng: &mut Rng, ctu: u32) -> h266::Settings {
    let most = ctu.min(64);
    let min_cb = if rng.percent(60) { 4 } else { side(rng, 4, most) };
    let min_qt = side(rng, min_cb, most);
    let greatest = 2 * (ctu.ilog2() - min_cb.ilog2());
    let max_mtt = rng.below_u32(greatest + 1);
    let max_bt = side(rng, min_qt, ctu);
    let max_tt = side(rng, min_qt, most);
    let step = if max_mtt == 0 { min_qt.max(8) } else { min_cb.max(8) };
    let width = picture_side(rng, ctu, step);
    let height = picture_side(rng, ctu, step);
    [ctu, min_cb, min_qt, max_mtt, max_bt, max_tt, width, height]
}

/// A number that is no power of two within the bounds.
pub(crate) fn bad_side(rng: &mut Rng, least: u32, most: u32) -> u32 {
    rng.pick(&[0, 1, least / 2, most * 2, least + 1, most - 1, 3 * least, 1 << 31, u32::MAX])
}

/// A number that is no picture side.
pub(crate) fn bad_picture_side(rng: &mut Rng, step: u32) -> u32 {
    rng.pick(&[0, 4, step + 4, 3 * step / 2, 16_384 + step, 32_768, 65_536, u32::MAX, 1 << 31])
}

/// Settings that are damaged so that this number, 1 to 9, is likely to be the first refusal. Later
/// fields may be damaged as well.
pub fn invalid(rng: &mut Rng, number: usize) -> h266::Settings {
    let mut s = valid(rng);
    let most = s[0].min(64);
    match number {
        1 => s[0] = rng.pick(&[0, 1, 16, 31, 33, 63, 96, 127, 129, 256, 1 << 31, u32::MAX]),
        2 => s[1] = bad_side(rng, 4, most),
        3 => s[2] = bad_side(rng, s[1], most),
        4 => s[3] = 2 * (s[0] / s[1]).ilog2() + rng.pick(&[1, 2, 100, 1 << 30]),
        5 => s[4] = bad_side(rng, s[2], s[0]),
        6 => s[5] = bad_side(rng, s[2], most),
        7 => s[6] = bad_picture_side(rng, s[1].max(8)),
        8 => s[7] = bad_picture_side(rng, s[1].max(8)),
        _ => off_grid(rng, &mut s),
    }
    if rng.percent(30) {
        let later = number.clamp(1, 8) - 1 + rng.below(9 - number.clamp(1, 8));
        s[later] = rng.pick(&[0, 3, 1 << 20, u32::MAX, s[later]]);
    }
    s
}

/// No multi-type splits, and a picture side that is no multiple of MinQt.
fn off_grid(rng: &mut Rng, s: &mut h266::Settings) {
    let most = s[0].min(64);
    s[1] = rng.pick(&[4, 8]);
    s[2] = side(rng, 16, most);
    s[3] = 0;
    s[4] = s[0];
    s[5] = most;
    s[6 + rng.below(2)] = s[2] * rng.below_u32(4) + 8;
    for side in &mut s[6..] {
        *side = (*side).next_multiple_of(8);
    }
}

/// The same settings with one limit of the tree changed; they pass all checks.
pub fn neighbour(rng: &mut Rng, settings: &h266::Settings) -> h266::Settings {
    loop {
        let mut other = *settings;
        match rng.below(5) {
            0 => other[1] = side(rng, 4, 64),
            1 => other[2] = side(rng, 4, 64),
            2 => other[3] = rng.below_u32(11),
            3 => other[4] = side(rng, 4, 128),
            _ => other[5] = side(rng, 4, 64),
        }
        if h266::Params::new(&other).is_ok() {
            return other;
        }
    }
}
