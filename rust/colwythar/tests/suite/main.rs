//! Tests of the engine through its wrapper; what is expected was written down by hand.

mod bank;
mod compare;
mod h265;
mod page;
mod paper;
mod row;
mod sentences;
mod session;

use colwythar::Settings;

/// Setting A of document 01.
const A: Settings = Settings {
    ctu: 64,
    min_cb: 4,
    min_qt: 8,
    max_mtt: 3,
    max_bt: 32,
    max_tt: 32,
    width: 64,
    height: 64,
};
