//! The kinds of call that are timed.

use std::hint::black_box;

use colwythar::{raw, MAX_PAGE_BYTES};

use crate::classes::{Unit, ROOM};
use crate::grants;

/// Which decoder.
#[derive(Clone, Copy, PartialEq, Eq)]
pub enum Side {
    Engine,
    H266,
    Tuned,
}

impl Side {
    pub const ALL: [Self; 3] = [Self::Engine, Self::H266, Self::Tuned];

    pub fn name(self) -> &'static str {
        match self {
            Self::Engine => "engine",
            Self::H266 => "h266",
            Self::Tuned => "tuned",
        }
    }
}

/// Which way.
#[derive(Clone, Copy, PartialEq, Eq)]
pub enum Way {
    Read,
    Write,
    Page,
    Compare,
    /// The unit call.
    Unit,
    /// The unit call granted by a bank of 4 cameras.
    Grant4,
    /// The unit call granted by a bank of 8 cameras.
    Grant8,
}

impl Way {
    pub const ALL: [Self; 7] = [
        Self::Read,
        Self::Write,
        Self::Page,
        Self::Compare,
        Self::Unit,
        Self::Grant4,
        Self::Grant8,
    ];

    pub fn name(self) -> &'static str {
        match self {
            Self::Read => "read",
            Self::Write => "write",
            Self::Page => "page",
            Self::Compare => "compare",
            Self::Unit => "unit",
            Self::Grant4 => "grant4",
            Self::Grant8 => "grant8",
        }
    }

    pub fn title(self) -> &'static str {
        match self {
            Self::Read => "reading",
            Self::Write => "way back",
            Self::Page => "page",
            Self::Compare => "comparison",
            Self::Unit => "unit call",
            Self::Grant4 => "grant, 4 cameras",
            Self::Grant8 => "grant, 8 cameras",
        }
    }

    /// Room for what any unit gives.
    pub fn room(self) -> usize {
        match self {
            Self::Read | Self::Write | Self::Unit | Self::Grant4 | Self::Grant8 => ROOM,
            Self::Page => MAX_PAGE_BYTES,
            Self::Compare => 0,
        }
    }
}

/// A call on a unit into a lent buffer. All sides are called through such a pointer, so that none
/// is inlined into the loop. The answer's two numbers are passed in registers: an array would be
/// copied by one load, which waits until the two stores before it have left the core.
pub type Call<S = h266::Settings> = fn(&Unit<S>, &mut [u8]) -> (u64, u64);

/// A kind of call, and the length of the buffer that it is lent.
pub struct Work<S = h266::Settings> {
    pub call: Call<S>,
    pub room: usize,
}

impl Work {
    /// The work of one side and way, where the side has this way: `tuned` has no pages, and compares
    /// nothing, and only the engine's unit calls and grants are timed.
    pub fn of(side: Side, way: Way) -> Option<Self> {
        Some(Self { call: call(side, way)?, room: way.room() })
    }
}

/// The call of one side and way.
fn call(side: Side, way: Way) -> Option<Call> {
    Some(match (side, way) {
        (Side::Engine, Way::Read) => {
            |u, lent| raw::read_unit(&u.settings, u.address, &u.flags, lent).into()
        }
        (Side::Engine, Way::Write) => {
            |u, lent| raw::write_flags(&u.settings, u.address, &u.rows, lent).into()
        }
        (Side::Engine, Way::Page) => {
            |u, lent| raw::page(&u.settings, u.address, &u.rows, lent).into()
        }
        (Side::Engine, Way::Compare) => {
            |u, _| raw::compare(&u.settings, u.address, &u.rows, &u.other).into()
        }
        (Side::H266, Way::Read) => {
            |u, lent| h266::read_unit(&u.settings, u.address, &u.flags, lent)
        }
        (Side::H266, Way::Write) => {
            |u, lent| h266::write_flags(&u.settings, u.address, &u.rows, lent)
        }
        (Side::H266, Way::Page) => |u, lent| h266::page(&u.settings, u.address, &u.rows, lent),
        (Side::H266, Way::Compare) => {
            |u, _| h266::compare(&u.settings, u.address, &u.rows, &u.other)
        }
        (Side::Tuned, Way::Read) => {
            |u, lent| tuned::read_unit(&u.settings, u.address, &u.flags, lent)
        }
        (Side::Tuned, Way::Write) => {
            |u, lent| tuned::write_flags(&u.settings, u.address, &u.rows, lent)
        }
        (Side::Engine, Way::Unit) => grants::unit,
        (Side::Engine, Way::Grant4) => grants::grant::<4>,
        (Side::Engine, Way::Grant8) => grants::grant::<8>,
        (Side::Tuned, Way::Page | Way::Compare) => return None,
        (_, Way::Unit | Way::Grant4 | Way::Grant8) => return None,
    })
}

/// A buffer to lend. It is the same for all calls and is not cleared between them.
pub struct Buffer(Vec<u8>);

impl Buffer {
    pub fn new(room: usize) -> Self {
        Self(vec![0; room])
    }

    /// Makes one call into this buffer.
    #[inline(always)]
    pub fn lend<S>(&mut self, call: Call<S>, unit: &Unit<S>) {
        let answer = call(black_box(unit), black_box(&mut self.0[..]));
        assert!(black_box(answer.0) == 0, "a legal unit was refused");
        black_box(answer.1);
    }
}
