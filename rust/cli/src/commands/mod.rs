//! The subcommands: what they have in common, and the list of them.

mod compare;
mod draw;
mod flags;
mod page;
mod table;

use std::io::{self, Write};

use colwythar::Row;

use crate::text::Reason;
use crate::{Complaint, Picture};

/// All subcommands, in the order of the help text.
pub const COMMANDS: [Entry; 5] =
    [table::ENTRY, flags::ENTRY, page::ENTRY, draw::ENTRY, compare::ENTRY];

/// What the help text says of a subcommand, and how it begins.
pub struct Entry {
    /// The word on the command line.
    pub name: &'static str,
    /// What it does, for the help text.
    pub about: &'static str,
    /// How many files it takes; any number from 1 on where none is said.
    pub files: Option<usize>,
    /// When it draws, where it does; `-o` then names the file of the drawing.
    pub drawing: Option<Drawing>,
    /// The subcommand before the first file.
    pub start: fn() -> Box<dyn Command>,
}

/// When a subcommand draws.
#[derive(Clone, Copy, PartialEq, Eq)]
pub enum Drawing {
    /// Always; without `-o` the drawing goes to standard output.
    Always,
    /// Where `-o` is given, besides what is printed.
    Asked,
}

impl Entry {
    /// Does it take so many files?
    pub fn takes(&self, files: usize) -> bool {
        self.files.map_or(files > 0, |wanted| files == wanted)
    }

    /// Does it draw, with `-o` given or not?
    pub fn draws(&self, asked: bool) -> bool {
        self.drawing.is_some_and(|drawing| asked || drawing == Drawing::Always)
    }
}

/// A subcommand: what it does with what stands in the files, in the order in which it stands there.
///
/// An error is one of writing; nothing is called after it.
pub trait Command {
    /// A file begins.
    fn begin(&mut self, _context: &mut Context<'_>) -> io::Result<()> {
        Ok(())
    }

    /// Why a picture line is not taken by this subcommand; none where it is.
    fn objection(&self, _picture: &Picture) -> Option<Reason> {
        None
    }

    /// The picture line. Where its settings are not accepted, a complaint follows.
    fn picture(
        &mut self,
        picture: &Picture,
        accepted: bool,
        context: &mut Context<'_>,
    ) -> io::Result<()>;

    /// A unit that the engine accepted, whichever way it was given.
    fn unit(&mut self, unit: &Unit<'_>, context: &mut Context<'_>) -> io::Result<()>;

    /// Something that was not accepted.
    fn complaint(&mut self, complaint: &Complaint, context: &mut Context<'_>) -> io::Result<()>;

    /// The end of a file that was read to its end.
    fn end_of_file(&mut self, _sum: &Sum, _context: &mut Context<'_>) -> io::Result<()> {
        Ok(())
    }

    /// The end of the last file. Answers whether all was accepted that is seen only now.
    fn finish(&mut self, _out: &mut dyn Write) -> io::Result<bool> {
        Ok(true)
    }

    /// Writes the drawing, after the end of the last file.
    fn draw(&mut self, _out: &mut dyn Write) -> io::Result<()> {
        Ok(())
    }
}

/// The file in reading, and where a subcommand writes to.
pub struct Context<'a> {
    /// The file's name, on one line.
    pub name: &'a str,
    /// Are there more files than this one?
    pub several: bool,
    /// Standard output.
    pub out: &'a mut dyn Write,
    /// Standard error.
    pub err: &'a mut dyn Write,
}

/// An accepted unit.
pub struct Unit<'a> {
    /// Its address.
    pub address: u64,
    /// Its flags, a byte each.
    pub flags: &'a [u8],
    /// Its rows, 8 bytes each.
    pub rows: &'a [u8],
}

impl Unit<'_> {
    /// The rows in order.
    pub fn rows(&self) -> impl ExactSizeIterator<Item = Row> + '_ {
        colwythar::rows(self.rows)
    }
}

/// What was accepted of a file.
pub struct Sum {
    /// How many units.
    pub units: u64,
    /// How many rows they have.
    pub rows: u64,
    /// Where there was a unit line: the address that is due, and how many units the picture has.
    pub due: Option<(u64, u64)>,
}
