//! `colwythar table`: the rows of each unit.

use std::io;

use super::{Command, Context, Entry, Sum, Unit};
use crate::{printing, Complaint, Picture};

pub const ENTRY: Entry = Entry {
    name: "table",
    about: "print the rows of each unit, in columns",
    files: None,
    drawing: None,
    start: || Box::new(Table::default()),
};

#[derive(Default)]
struct Table {
    /// Does the header of the columns stand before the file's rows already?
    header: bool,
}

impl Command for Table {
    fn begin(&mut self, context: &mut Context<'_>) -> io::Result<()> {
        self.header = false;
        printing::heading(context)
    }

    fn picture(&mut self, picture: &Picture, _: bool, to: &mut Context<'_>) -> io::Result<()> {
        printing::picture(picture, to.out)
    }

    fn unit(&mut self, unit: &Unit<'_>, context: &mut Context<'_>) -> io::Result<()> {
        if !self.header {
            self.header = true;
            printing::header(context.out)?;
        }
        printing::rows(unit, context.out)
    }

    fn complaint(&mut self, complaint: &Complaint, context: &mut Context<'_>) -> io::Result<()> {
        writeln!(context.out, "# {complaint}")
    }

    fn end_of_file(&mut self, sum: &Sum, context: &mut Context<'_>) -> io::Result<()> {
        printing::sum(sum, context.out)
    }
}
