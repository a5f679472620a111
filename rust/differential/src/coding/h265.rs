//! H.265: the engine and `h265`.

use colwythar::raw;
use samples::relatives::Change;
use samples::{quads, Rng};

use super::{BankSide, Coding, OnTables, OnUnit, Opening, Side};

impl Coding for h265::Settings {
    const SIDES: &[Side<Self>] = &[
        Side {
            read: |s, at, flags, lent| raw::h265::read_unit(s, at, flags, lent).into(),
            write: |s, at, rows, lent| raw::h265::write_flags(s, at, rows, lent).into(),
            unit: |s, due, at, flags, lent| raw::h265::unit(s, due, at, flags, lent).into(),
        },
        Side { read: h265::read_unit, write: h265::write_flags, unit: h265::unit },
    ];
    const OPENINGS: [Opening<Self>; 2] = [
        Opening {
            open: |s, due| raw::h265::open(s, due).into(),
            count: |s| raw::h265::unit_count(s).into(),
        },
        Opening { open: h265::open, count: h265::unit_count },
    ];
    const PAGES: &[OnUnit<Self>] = &[];
    const COMPARISONS: &[OnTables<Self>] = &[];
    const BANKS: &[BankSide<Self>] = &[];
    const FAULTS: &[usize] = &quads::FAULTS;
    type Style = usize;
    const STYLES: &[usize] = &quads::STYLES;

    fn valid(rng: &mut Rng) -> Self {
        quads::valid(rng)
    }

    fn invalid(rng: &mut Rng) -> Self {
        let fault = rng.below(quads::FAULTS.len());
        quads::invalid(rng, fault)
    }

    fn neighbour(&self, rng: &mut Rng) -> Self {
        quads::neighbour(rng, self)
    }

    fn with_picture(self, width: u32, height: u32) -> Self {
        let [ctu, min_cb, ..] = self;
        [ctu, min_cb, width, height]
    }

    fn picture(&self) -> (u32, u32) {
        (self[2], self[3])
    }

    fn pipeline_side(&self) -> u32 {
        let side = self[0].min(64);
        assert_eq!(colwythar::h265::Settings::from(*self).pipeline_side(), side, "{self:?}");
        side
    }

    fn max_rows(&self) -> usize {
        colwythar::h265::Settings::from(*self).max_rows()
    }

    fn max_flags(&self) -> usize {
        colwythar::h265::Settings::from(*self).max_flags()
    }

    fn flags(&self, address: u64, rng: &mut Rng, ones: usize) -> Vec<u8> {
        quads::flags(self, address, rng, ones)
    }

    fn lawless_rows(&self, address: u64, rng: &mut Rng) -> Vec<u8> {
        quads::lawless_rows(self, address, rng)
    }

    fn related(&self, _: u64, _: &mut Rng, _: &[Change]) -> Option<Vec<Vec<u8>>> {
        None
    }
}
