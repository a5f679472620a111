//! `colwythar flags`: the flags of each unit.

use std::io;

use super::{Command, Context, Entry, Unit};
use crate::{printing, Complaint, Picture};

pub const ENTRY: Entry = Entry {
    name: "flags",
    about: "print the flags of each unit, as unit lines",
    files: None,
    drawing: None,
    start: || Box::new(Flags),
};

struct Flags;

impl Command for Flags {
    fn begin(&mut self, context: &mut Context<'_>) -> io::Result<()> {
        printing::heading(context)
    }

    fn picture(&mut self, picture: &Picture, _: bool, to: &mut Context<'_>) -> io::Result<()> {
        printing::picture(picture, to.out)
    }

    fn unit(&mut self, unit: &Unit<'_>, context: &mut Context<'_>) -> io::Result<()> {
        printing::unit_line(unit, context.out)
    }

    fn complaint(&mut self, complaint: &Complaint, context: &mut Context<'_>) -> io::Result<()> {
        writeln!(context.out, "# {complaint}")
    }
}
