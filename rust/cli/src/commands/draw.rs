//! `colwythar draw`: the coding blocks of each unit as a picture.

use std::io::{self, Write};

use super::{Command, Context, Drawing, Entry, Unit};
use crate::{output, svg, Complaint, Picture};

pub const ENTRY: Entry = Entry {
    name: "draw",
    about: "draw the coding blocks of each unit, as an SVG picture",
    files: None,
    drawing: Some(Drawing::Always),
    start: || Box::new(Draw::default()),
};

/// The pictures so far. They are written at the end, as the size of the drawing comes first.
#[derive(Default)]
struct Draw {
    pictures: Vec<svg::Picture>,
}

impl Command for Draw {
    /// A picture with settings that are not accepted has no units, and is not drawn.
    fn picture(
        &mut self,
        picture: &Picture,
        accepted: bool,
        _: &mut Context<'_>,
    ) -> io::Result<()> {
        if accepted {
            self.pictures.push(svg::Picture::new(picture));
        }
        Ok(())
    }

    fn unit(&mut self, unit: &Unit<'_>, _: &mut Context<'_>) -> io::Result<()> {
        if let Some(picture) = self.pictures.last_mut() {
            picture.blocks.extend(unit.rows().map(|row| svg::Block { unit: unit.address, row }));
        }
        Ok(())
    }

    fn complaint(&mut self, complaint: &Complaint, context: &mut Context<'_>) -> io::Result<()> {
        output::say_complaint(complaint, context)
    }

    fn draw(&mut self, out: &mut dyn Write) -> io::Result<()> {
        if self.pictures.is_empty() {
            return Ok(());
        }
        svg::write(&self.pictures, out)
    }
}
