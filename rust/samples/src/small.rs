//! Settings whose units have few trees: large smallest blocks, and narrow pictures.

use h266::{Params, Settings};

/// All of them; they pass all checks. Some units still have too many trees.
pub fn settings() -> Vec<Settings> {
    let mut all = Vec::new();
    for ctu in [32, 64, 128] {
        for min_cb in [4, 8, 16, 32, 64] {
            for min_qt in [4, 8, 16, 32, 64] {
                all.extend(variants(ctu, min_cb, min_qt));
            }
        }
    }
    all.retain(|settings| Params::new(settings).is_ok());
    all
}

/// Depths, largest sides and picture sides for the first three settings.
fn variants(ctu: u32, min_cb: u32, min_qt: u32) -> Vec<Settings> {
    let mut all = Vec::new();
    let most = ctu.min(64);
    for max_mtt in [0, 1, 2, 3, 4] {
        for (max_bt, max_tt) in [(ctu, most), (min_qt, most), (ctu, min_qt)] {
            for (width, height) in
                [(8, 8), (8, ctu), (ctu, 8), (16, 24), (ctu, ctu), (ctu + 8, ctu - 8)]
            {
                all.push([ctu, min_cb, min_qt, max_mtt, max_bt, max_tt, width, height]);
            }
        }
    }
    all
}
