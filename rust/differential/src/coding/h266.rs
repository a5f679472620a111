//! H.266: the engine, `h266` and `tuned`.

use colwythar::raw;
use h266::Bank;
use samples::relatives::{self, Change};
use samples::{settings, trees, Rng, Style};

use super::{BankSide, Coding, OnTables, OnUnit, Opening, Side};
use crate::accounts;

impl Coding for h266::Settings {
    const SIDES: &[Side<Self>] = &[
        Side {
            read: |s, at, flags, lent| raw::read_unit(s, at, flags, lent).into(),
            write: |s, at, rows, lent| raw::write_flags(s, at, rows, lent).into(),
            unit: |s, due, at, flags, lent| raw::unit(s, due, at, flags, lent).into(),
        },
        Side { read: h266::read_unit, write: h266::write_flags, unit: h266::unit },
        Side { read: tuned::read_unit, write: tuned::write_flags, unit: tuned::unit },
    ];
    const OPENINGS: [Opening<Self>; 2] = [
        Opening { open: |s, due| raw::open(s, due).into(), count: |s| raw::unit_count(s).into() },
        Opening { open: h266::open, count: h266::unit_count },
    ];
    const PAGES: &[OnUnit<Self>] =
        &[|s, at, rows, lent| raw::page(s, at, rows, lent).into(), h266::page];
    const COMPARISONS: &[OnTables<Self>] =
        &[|s, at, first, second| raw::compare(s, at, first, second).into(), h266::compare];
    const BANKS: &[BankSide<Self>] = &[
        BankSide { grant: accounts::grant, new_period: accounts::new_period },
        BankSide { grant: Bank::grant, new_period: Bank::new_period },
    ];
    const FAULTS: &[usize] = &[1, 2, 3, 4, 5, 6, 7, 8, 9];
    type Style = Style;
    const STYLES: &[Style] = &Style::ALL;

    fn valid(rng: &mut Rng) -> Self {
        settings::valid(rng)
    }

    fn invalid(rng: &mut Rng) -> Self {
        let number = 1 + rng.below(9);
        settings::invalid(rng, number)
    }

    fn neighbour(&self, rng: &mut Rng) -> Self {
        settings::neighbour(rng, self)
    }

    fn with_picture(self, width: u32, height: u32) -> Self {
        let [ctu, min_cb, min_qt, max_mtt, max_bt, max_tt, ..] = self;
        [ctu, min_cb, min_qt, max_mtt, max_bt, max_tt, width, height]
    }

    fn picture(&self) -> (u32, u32) {
        (self[6], self[7])
    }

    fn pipeline_side(&self) -> u32 {
        let side = h266::pipeline_side(self);
        assert_eq!(colwythar::Settings::from(*self).pipeline_side(), side, "{self:?}");
        side
    }

    fn max_rows(&self) -> usize {
        colwythar::MAX_ROWS
    }

    fn max_flags(&self) -> usize {
        colwythar::Settings::from(*self).max_flags()
    }

    fn flags(&self, address: u64, rng: &mut Rng, style: Style) -> Vec<u8> {
        trees::flags(self, address, rng, style)
    }

    fn lawless_rows(&self, address: u64, rng: &mut Rng) -> Vec<u8> {
        trees::lawless_rows(self, address, rng)
    }

    fn related(&self, address: u64, rng: &mut Rng, changes: &[Change]) -> Option<Vec<Vec<u8>>> {
        relatives::tables(rng, self, address, changes)
    }
}
