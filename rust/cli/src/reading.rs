//! A file's lines, given to the engine in order, and what a command is told of them.

use std::io::{self, BufRead};

use colwythar::{Refusal, Row, MAX_FLAGS, MAX_ROWS};

use crate::table::Table;
use crate::text::{scan, Line, Lines, Malformed, Reason, Subject, Text};
use crate::{Command, Complaint, Context, Picture, Place, Sum, Unit, Units};

/// The bytes of the most rows that a unit has.
const ROW_BYTES: usize = 8 * MAX_ROWS;

/// Reading a file came to an end before the file did.
#[derive(Debug)]
pub enum Trouble {
    /// The file cannot be read.
    Input(io::Error),
    /// What a command says cannot be written.
    Output(io::Error),
}

/// Reads a file and tells the command what stands in it. Answers whether all of it was accepted.
///
/// # Errors
///
/// What the input or the output answers.
pub fn read(
    input: impl BufRead,
    command: &mut dyn Command,
    context: &mut Context<'_>,
) -> Result<bool, Trouble> {
    let mut reader = Reader::new(command, context);
    let mut lines = Lines::new(input);
    while let Some(text) = lines.advance().map_err(Trouble::Input)? {
        reader.line(text).map_err(Trouble::Output)?;
        if reader.stopped {
            break;
        }
    }
    reader.end().map_err(Trouble::Output)?;
    Ok(reader.accepted)
}

/// A file's state between its lines.
struct Reader<'a, 'b> {
    command: &'a mut dyn Command,
    context: &'a mut Context<'b>,
    /// Once a picture line opened them.
    picture: Option<Box<dyn Units>>,
    /// The table that is not ended yet.
    table: Table,
    /// The flags of the line.
    flags: Vec<u8>,
    /// What the engine writes to.
    engine_rows: Box<[u8; ROW_BYTES]>,
    engine_flags: Box<[u8; MAX_FLAGS]>,
    /// Was there a unit line?
    unit_lines: bool,
    units: u64,
    rows: u64,
    /// No complaint so far.
    accepted: bool,
    /// No further line is looked at.
    stopped: bool,
}

impl<'a, 'b> Reader<'a, 'b> {
    fn new(command: &'a mut dyn Command, context: &'a mut Context<'b>) -> Self {
        Self {
            command,
            context,
            picture: None,
            table: Table::default(),
            flags: Vec::new(),
            engine_rows: Box::new([0; ROW_BYTES]),
            engine_flags: Box::new([0; MAX_FLAGS]),
            unit_lines: false,
            units: 0,
            rows: 0,
            accepted: true,
            stopped: false,
        }
    }

    fn line(&mut self, text: Text<'_>) -> io::Result<()> {
        match scan(text, &mut self.flags) {
            Ok(Line::Blank) => Ok(()),
            Ok(Line::Picture(picture)) => self.picture(text.number, picture),
            Ok(Line::Unit(address)) => self.unit(text.number, address.into()),
            Ok(Line::Row(address, row)) => self.row(text.number, address.into(), row),
            Err(malformed) => self.malformed(text.number, malformed),
        }
    }

    /// A picture line opens the session.
    fn picture(&mut self, line: u64, picture: Picture) -> io::Result<()> {
        self.end_table()?;
        if self.picture.is_some() {
            return self.malformed(line, Reason::Second.into());
        }
        if let Some(reason) = self.command.objection(&picture) {
            return self.malformed(line, reason.into());
        }
        let opened = picture.open();
        self.command.picture(&picture, opened.is_ok(), self.context)?;
        match opened {
            Ok(units) => {
                self.picture = Some(units);
                Ok(())
            }
            Err(refusal) => self.stop(Complaint::Picture { line, refusal }),
        }
    }

    /// A unit line's flags become rows, by the file's one session.
    fn unit(&mut self, line: u64, address: u64) -> io::Result<()> {
        self.end_table()?;
        let Some(picture) = &mut self.picture else {
            return self.malformed(line, Reason::First.into());
        };
        self.unit_lines = true;
        match picture.read(address, &self.flags, &mut *self.engine_rows) {
            Ok(count) => {
                let rows = &self.engine_rows[..8 * count];
                self.units += 1;
                self.rows += count as u64;
                self.command.unit(&Unit { address, flags: &self.flags, rows }, self.context)
            }
            Err(refusal) => self.refused((line, line), None, address, refusal),
        }
    }

    /// A row of the table that is not ended, or the first of the next one.
    fn row(&mut self, line: u64, address: u64, row: Row) -> io::Result<()> {
        if self.picture.is_none() {
            return self.malformed(line, Reason::First.into());
        }
        if !self.table.is_of(address) {
            self.end_table()?;
        }
        if self.table.push(line, address, row) {
            return Ok(());
        }
        self.say_malformed(line, address, Reason::Rows)
    }

    /// The table that was not ended, if there was one, is whole: its rows become flags.
    fn end_table(&mut self) -> io::Result<()> {
        let Some(picture) = &self.picture else { return Ok(()) };
        if self.table.is_empty() {
            return Ok(());
        }
        let (address, rows) = (self.table.address(), self.table.bytes());
        match picture.turn_back(address, rows, &mut *self.engine_flags) {
            Ok(count) => {
                let flags = &self.engine_flags[..count];
                self.units += 1;
                self.rows += self.table.len() as u64;
                self.command.unit(&Unit { address, flags, rows }, self.context)?;
            }
            Err(refusal) => {
                let row_line = match refusal.number {
                    16 | 28 => self.table.line_of(refusal.place),
                    _ => None,
                };
                self.refused(self.table.lines(), row_line, address, refusal)?;
            }
        }
        self.table.clear();
        Ok(())
    }

    fn refused(
        &mut self,
        lines: (u64, u64),
        row_line: Option<u64>,
        address: u64,
        refusal: Refusal,
    ) -> io::Result<()> {
        let units = self.picture.as_ref().map_or(0, |picture| picture.progress().1);
        self.complain(Complaint::Unit { lines, row_line, address, units, refusal })
    }

    /// A line that is not taken ends the table before it, unless it begins as a row of it: then the
    /// table is not whole.
    fn malformed(&mut self, line: u64, malformed: Malformed) -> io::Result<()> {
        let unit = malformed.row_of.map(u64::from);
        if !unit.is_some_and(|unit| self.table.is_of(unit)) {
            self.end_table()?;
        }
        self.say_malformed(line, unit.unwrap_or(0), malformed.reason)
    }

    /// Says why a line is not taken; `unit` is the address of the row that it is.
    fn say_malformed(&mut self, line: u64, unit: u64, reason: Reason) -> io::Result<()> {
        let place = match reason.subject() {
            Subject::Line => Place::Line,
            Subject::Flag => Place::Flag(self.flags.len()),
            Subject::Row => Place::Row { row: self.table.len(), unit },
        };
        self.stop(Complaint::Malformed { line, place, reason })
    }

    /// After this complaint no further line is looked at.
    fn stop(&mut self, complaint: Complaint) -> io::Result<()> {
        self.stopped = true;
        self.complain(complaint)
    }

    fn complain(&mut self, complaint: Complaint) -> io::Result<()> {
        self.accepted = false;
        self.command.complaint(&complaint, self.context)
    }

    /// The end of the file.
    fn end(&mut self) -> io::Result<()> {
        if self.stopped {
            return Ok(());
        }
        self.end_table()?;
        let Some(picture) = &self.picture else {
            return self.complain(Complaint::Nothing);
        };
        let due = self.unit_lines.then(|| picture.progress());
        let sum = Sum { units: self.units, rows: self.rows, due };
        self.command.end_of_file(&sum, self.context)
    }
}
