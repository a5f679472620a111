//! What a line says.

use colwythar::Row;

use super::words::{Word, Words};
use super::{Reason, Text};
use crate::Picture;

/// How many flags a unit line has at most.
const MOST_FLAGS: usize = 65_535;

/// A line that can be taken. The flags of a unit line are in the buffer that was lent.
#[derive(Clone, Copy, Debug, PartialEq, Eq)]
pub enum Line {
    /// Nothing, or a comment.
    Blank,
    /// The settings of the picture.
    Picture(Picture),
    /// The flags of the unit with this address.
    Unit(u32),
    /// A row of the unit with this address.
    Row(u32, Row),
}

/// A line that cannot be taken.
#[derive(Clone, Copy, Debug, PartialEq, Eq)]
pub struct Malformed {
    /// Why not.
    pub reason: Reason,
    /// The unit of which it begins as a row.
    pub row_of: Option<u32>,
}

impl From<Reason> for Malformed {
    fn from(reason: Reason) -> Self {
        Self { reason, row_of: None }
    }
}

/// Says what a line is. The flags before the one that is not taken are in the buffer, too.
///
/// ```
/// use cli::text::{scan, Line, Text};
///
/// let mut flags = Vec::new();
/// let line = scan(Text { number: 1, bytes: b"unit 3: 1 0", cut: false }, &mut flags);
/// assert_eq!((line, flags), (Ok(Line::Unit(3)), vec![1, 0]));
/// ```
///
/// # Errors
///
/// The first thing in the line that cannot be taken.
pub fn scan(text: Text<'_>, flags: &mut Vec<u8>) -> Result<Line, Malformed> {
    flags.clear();
    let mut words = Words::new(text.bytes);
    if text.cut {
        let row_of = words.take().ok().and_then(row_address);
        return Err(Malformed { reason: Reason::Long, row_of });
    }
    if words.at_hash() {
        return Ok(Line::Blank);
    }
    let first = words.take()?;
    match first {
        Word::End => Ok(Line::Blank),
        Word::Name(b"picture") => Ok(picture(words, H266)?),
        Word::Name(b"h265") => Ok(picture(words, H265)?),
        Word::Name(b"unit") => Ok(unit(words, flags)?),
        Word::Name(_) => Err(Reason::Word.into()),
        Word::Colon => Err(Reason::Colon.into()),
        Word::Number(_) => {
            let unit = row_address(first).ok_or(Reason::AddressLarge)?;
            row(words).map(|row| Line::Row(unit, row)).map_err(|reason| of_row(reason, unit))
        }
    }
}

fn of_row(reason: Reason, unit: u32) -> Malformed {
    Malformed { reason, row_of: Some(unit) }
}

/// A line that begins with a number is a row of the unit with this address.
fn row_address(first: Word<'_>) -> Option<u32> {
    match first {
        Word::Number(value) => value.try_into().ok(),
        _ => None,
    }
}

/// A kind of picture line: how many numbers it has, and why another one is not taken.
struct Kind<const N: usize> {
    settings: fn([u32; N]) -> Picture,
    word: Reason,
    few: Reason,
    many: Reason,
}

const H266: Kind<8> = Kind {
    settings: |numbers| Picture::H266(numbers.into()),
    word: Reason::PictureWord,
    few: Reason::PictureFew,
    many: Reason::PictureMany,
};

const H265: Kind<4> = Kind {
    settings: |numbers| Picture::H265(numbers.into()),
    word: Reason::H265Word,
    few: Reason::H265Few,
    many: Reason::H265Many,
};

fn picture<const N: usize>(mut words: Words<'_>, kind: Kind<N>) -> Result<Line, Reason> {
    let mut numbers = [0; N];
    let mut count = 0;
    loop {
        let value = match words.take()? {
            Word::End if count == N => return Ok(Line::Picture((kind.settings)(numbers))),
            Word::End => return Err(kind.few),
            Word::Colon => return Err(Reason::Colon),
            Word::Name(_) => return Err(kind.word),
            Word::Number(value) => value,
        };
        let number = numbers.get_mut(count).ok_or(kind.many)?;
        *number = value.try_into().map_err(|_| Reason::PictureLarge)?;
        count += 1;
    }
}

fn unit(mut words: Words<'_>, flags: &mut Vec<u8>) -> Result<Line, Reason> {
    let Word::Number(address) = words.take()? else {
        return Err(Reason::Address);
    };
    let address = address.try_into().map_err(|_| Reason::AddressLarge)?;
    let Word::Colon = words.take()? else {
        return Err(Reason::NoColon);
    };
    loop {
        let flag = match words.take()? {
            Word::End => return Ok(Line::Unit(address)),
            Word::Colon => return Err(Reason::Colon),
            Word::Name(_) => return Err(Reason::Flag),
            Word::Number(value) => value.try_into().map_err(|_| Reason::Flag)?,
        };
        if flags.len() == MOST_FLAGS {
            return Err(Reason::FlagMany);
        }
        flags.push(flag);
    }
}

/// The six numbers after the address.
fn row(mut words: Words<'_>) -> Result<Row, Reason> {
    let row = Row {
        x: corner(&mut words)?,
        y: corner(&mut words)?,
        width_exponent: side_exponent(&mut words)?,
        height_exponent: side_exponent(&mut words)?,
        qt_depth: depth(&mut words)?,
        mtt_depth: depth(&mut words)?,
    };
    match number(&mut words) {
        Err(Reason::RowFew) => Ok(row),
        Err(reason) => Err(reason),
        Ok(_) => Err(Reason::RowMany),
    }
}

fn corner(words: &mut Words<'_>) -> Result<u16, Reason> {
    number(words)?.try_into().map_err(|_| Reason::RowCorner)
}

fn side_exponent(words: &mut Words<'_>) -> Result<u8, Reason> {
    let side: u16 = number(words)?.try_into().map_err(|_| Reason::RowSide)?;
    side.is_power_of_two().then_some(side.trailing_zeros() as u8).ok_or(Reason::RowSide)
}

fn depth(words: &mut Words<'_>) -> Result<u8, Reason> {
    number(words)?.try_into().map_err(|_| Reason::RowDepth)
}

/// The next number of a row.
fn number(words: &mut Words<'_>) -> Result<u64, Reason> {
    match words.take()? {
        Word::Number(value) => Ok(value),
        Word::Name(_) => Err(Reason::RowWord),
        Word::Colon => Err(Reason::Colon),
        Word::End => Err(Reason::RowFew),
    }
}
