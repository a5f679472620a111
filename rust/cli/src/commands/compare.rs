//! `colwythar compare`: which of two tables of each unit is finer.

use std::io::{self, Write};
use std::mem;

use colwythar::{compare, Settings};

use super::{Command, Context, Drawing, Entry, Unit};
use crate::pairs::{pairs, Given, Pair};
use crate::text::Reason;
use crate::{output, svg, Complaint, Picture};

pub const ENTRY: Entry = Entry {
    name: "compare",
    about: "say of each unit which file's table is finer",
    files: Some(2),
    drawing: Some(Drawing::Asked),
    start: || Box::new(Compare::default()),
};

/// The files so far. They are compared at the end, in the order of the first file's units.
#[derive(Default)]
struct Compare {
    files: Vec<File>,
    /// The units that were compared, for the drawing.
    comparison: Option<svg::Comparison>,
}

/// What a file gives.
#[derive(Default)]
struct File {
    /// Its settings, once they are accepted.
    settings: Option<Settings>,
    units: Vec<Given>,
}

impl Command for Compare {
    fn begin(&mut self, _: &mut Context<'_>) -> io::Result<()> {
        self.files.push(File::default());
        Ok(())
    }

    /// The engine compares tables in H.266 only, and those of one picture.
    fn objection(&self, picture: &Picture) -> Option<Reason> {
        let Picture::H266(settings) = picture else { return Some(Reason::NoComparison) };
        let other = |file: &File| file.settings.is_some_and(|other| other != *settings);
        self.files.iter().any(other).then_some(Reason::OtherSettings)
    }

    fn picture(
        &mut self,
        picture: &Picture,
        accepted: bool,
        _: &mut Context<'_>,
    ) -> io::Result<()> {
        if let (Picture::H266(settings), Some(file)) = (picture, self.files.last_mut()) {
            file.settings = accepted.then_some(*settings);
        }
        Ok(())
    }

    fn unit(&mut self, unit: &Unit<'_>, _: &mut Context<'_>) -> io::Result<()> {
        if let Some(file) = self.files.last_mut() {
            file.units.push((unit.address, unit.rows.to_vec()));
        }
        Ok(())
    }

    fn complaint(&mut self, complaint: &Complaint, context: &mut Context<'_>) -> io::Result<()> {
        output::say_complaint(complaint, context)
    }

    /// Nothing is compared where a file has no accepted settings, which has been said.
    fn finish(&mut self, out: &mut dyn Write) -> io::Result<bool> {
        let [first, second] = &mut self.files[..] else { return Ok(true) };
        let (Some(settings), Some(_)) = (first.settings, second.settings) else { return Ok(true) };
        let units = pairs(mem::take(&mut first.units), mem::take(&mut second.units));
        let comparison = self.comparison.insert(svg::Comparison::new(&settings));
        let mut accepted = true;
        for unit in units {
            accepted &= say(unit, &settings, comparison, out)?;
        }
        Ok(accepted)
    }

    fn draw(&mut self, out: &mut dyn Write) -> io::Result<()> {
        self.comparison.as_ref().map_or(Ok(()), |comparison| comparison.write(out))
    }
}

/// Says which table of a unit is finer, or which file alone has one. Answers whether both have.
fn say(
    Pair { address, tables }: Pair,
    settings: &Settings,
    comparison: &mut svg::Comparison,
    out: &mut dyn Write,
) -> io::Result<bool> {
    let file = if tables[0].is_some() { "first" } else { "second" };
    let [Some(first), Some(second)] = tables else {
        writeln!(out, "unit {address}: accepted in the {file} file only")?;
        return Ok(false);
    };
    // The rows of accepted units are those of trees, so they are compared.
    let finer = compare(settings, address, &first, &second).expect("accepted units are compared");
    writeln!(out, "unit {address}: {finer}")?;
    comparison.add(address, finer, [first, second]);
    Ok(true)
}
