//! Why a line is not taken, in words.

use std::fmt;

/// Why a line is not taken.
#[derive(Clone, Copy, Debug, PartialEq, Eq)]
pub enum Reason {
    /// It begins with an unknown word.
    Word,
    /// A byte that is neither a blank nor printing ASCII.
    Byte,
    /// A carriage return that does not end the line.
    Return,
    /// A # after something else.
    Comment,
    /// More bytes than a line may have.
    Long,
    /// A unit or a row before the picture line.
    First,
    /// A second picture line.
    Second,
    /// A word among the numbers of a picture.
    PictureWord,
    /// Fewer numbers than eight.
    PictureFew,
    /// More numbers than eight.
    PictureMany,
    /// A word among the numbers of a picture in H.265.
    H265Word,
    /// Fewer numbers than four.
    H265Few,
    /// More numbers than four.
    H265Many,
    /// A picture in H.265, of which no page is printed.
    NoPage,
    /// A picture in H.265, whose tables are not compared.
    NoComparison,
    /// Other settings than those of the file with which this one is compared.
    OtherSettings,
    /// A number of a picture that needs more than 32 bits.
    PictureLarge,
    /// No number after `unit`.
    Address,
    /// An address that needs more than 32 bits.
    AddressLarge,
    /// No colon after the address.
    NoColon,
    /// A colon elsewhere.
    Colon,
    /// A flag that is no byte.
    Flag,
    /// More flags than a unit line may have.
    FlagMany,
    /// A word among the numbers of a row.
    RowWord,
    /// Fewer numbers than seven.
    RowFew,
    /// More numbers than seven.
    RowMany,
    /// X or Y above 65,535.
    RowCorner,
    /// A width or height that is no power of two up to 32,768.
    RowSide,
    /// A depth above 255.
    RowDepth,
    /// More rows than a table may have.
    Rows,
}

/// What a reason is about.
#[derive(Clone, Copy, Debug, PartialEq, Eq)]
pub enum Subject {
    /// The line as a whole.
    Line,
    /// One flag of a unit line.
    Flag,
    /// One row of a table.
    Row,
}

impl Reason {
    /// What the reason is about.
    pub fn subject(self) -> Subject {
        match self {
            Self::Flag | Self::FlagMany => Subject::Flag,
            Self::RowWord | Self::RowFew | Self::RowMany => Subject::Row,
            Self::RowCorner | Self::RowSide | Self::RowDepth | Self::Rows => Subject::Row,
            _ => Subject::Line,
        }
    }

    /// The sentence of a reason that is about a picture line, a flag or a row.
    fn sentence_of_numbers(self) -> &'static str {
        match self {
            Self::PictureWord => "after \"picture\" there are numbers only",
            Self::PictureFew => {
                "too few numbers; a picture has eight: CTU MinCb MinQt M MaxBt MaxTt width height"
            }
            Self::PictureMany => {
                "too many numbers; a picture has eight: CTU MinCb MinQt M MaxBt MaxTt width height"
            }
            Self::H265Word => "after \"h265\" there are numbers only",
            Self::H265Few => "too few numbers; \"h265\" has four: CTU MinCb width height",
            Self::H265Many => "too many numbers; \"h265\" has four: CTU MinCb width height",
            Self::PictureLarge => "a number of a picture is at most 4294967295",
            Self::Flag => "a flag is a number from 0 to 255",
            Self::FlagMany => "a unit line has at most 65535 flags",
            Self::RowWord => "a row has numbers only",
            Self::RowFew => {
                "too few numbers; a row has seven: unit, x, y, width, height, QT depth, MTT depth"
            }
            Self::RowMany => {
                "too many numbers; a row has seven: unit, x, y, width, height, QT depth, MTT depth"
            }
            Self::RowCorner => "x and y of a row are at most 65535",
            Self::RowSide => "width and height of a row are powers of two up to 32768",
            Self::RowDepth => "a depth is at most 255",
            _ => "a table has at most 2048 rows",
        }
    }
}

impl fmt::Display for Reason {
    fn fmt(&self, f: &mut fmt::Formatter<'_>) -> fmt::Result {
        f.write_str(match self {
            Self::Word => {
                "a line begins with \"picture\", \"h265\", \"unit\" or a number, a comment with #"
            }
            Self::Byte => "a byte that is no plain text (ASCII)",
            Self::Return => "a carriage return within the line",
            Self::Comment => "a comment has a line of its own, which begins with #",
            Self::Long => "a line has at most 1048576 bytes",
            Self::First => "a picture line is expected before this one",
            Self::Second => "a second picture line; a file has one",
            Self::NoPage => "there is no page of a picture in H.265",
            Self::NoComparison => "tables of a picture in H.265 are not compared",
            Self::OtherSettings => "other settings than those of the first file",
            Self::Address => "a number is expected after \"unit\"",
            Self::AddressLarge => "a unit's address is at most 4294967295",
            Self::NoColon => "a colon is expected after the unit's address",
            Self::Colon => "a colon stands after a unit's address and nowhere else",
            _ => self.sentence_of_numbers(),
        })
    }
}
