//! `colwythar page`: the page of each unit, the bytes that the engine gives.

use std::io;

use colwythar::{page, Settings, MAX_PAGE_BYTES};

use super::{Command, Context, Entry, Unit};
use crate::text::Reason;
use crate::{output, Complaint, Picture};

pub const ENTRY: Entry = Entry {
    name: "page",
    about: "print the page of each unit: a line of 33 bytes for each row",
    files: None,
    drawing: None,
    start: || Box::new(Page { settings: None, lent: vec![0; MAX_PAGE_BYTES] }),
};

struct Page {
    /// The settings of the file's picture.
    settings: Option<Settings>,
    /// What the engine writes to.
    lent: Vec<u8>,
}

impl Command for Page {
    /// The engine prints pages in H.266 only.
    fn objection(&self, picture: &Picture) -> Option<Reason> {
        matches!(picture, Picture::H265(_)).then_some(Reason::NoPage)
    }

    fn picture(&mut self, picture: &Picture, _: bool, _: &mut Context<'_>) -> io::Result<()> {
        if let Picture::H266(settings) = picture {
            self.settings = Some(*settings);
        }
        Ok(())
    }

    /// The rows of an accepted unit are those of a tree, so they have a page.
    fn unit(&mut self, unit: &Unit<'_>, context: &mut Context<'_>) -> io::Result<()> {
        let Some(settings) = &self.settings else { return Ok(()) };
        let count = page(settings, unit.address, unit.rows, &mut self.lent)
            .expect("an accepted unit has a page");
        context.out.write_all(&self.lent[..count])
    }

    fn complaint(&mut self, complaint: &Complaint, context: &mut Context<'_>) -> io::Result<()> {
        output::say_complaint(complaint, context)
    }
}
