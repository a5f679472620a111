//! The drawing of a comparison: the edges of two tables of each unit, in the colour of those that both
//! have, the first alone or the second alone, and below the picture what the colours mean.

use std::io::{self, Write};

use colwythar::{Finer, Settings};

use super::{display_scale, seen, write_grid, write_ground, write_head, GAP};
use crate::edges::{of_table, path};

/// The classes of edges, their colours, their widths on the screen and their meaning.
const CLASSES: [(&str, &str, f64, &str); 3] = [
    ("both", "#8b98a5", 1.0, "edges of both tables"),
    ("first", "#d9620f", 2.4, "edges of the first table only"),
    ("second", "#1668c4", 2.4, "edges of the second table only"),
];

/// The legend on the screen: its width, and the height of its lines.
const LEGEND_WIDTH: u64 = 240;
const LINE_HEIGHT: u32 = 18;

/// In a line of the legend: the length of the stroke, where the text begins, and its size.
const STROKE: f64 = 24.0;
const TEXT: f64 = 30.0;
const TEXT_SIZE: f64 = 12.0;

/// A picture and the units that were compared.
pub struct Comparison {
    ctu: u32,
    width: u32,
    height: u32,
    units: Vec<Unit>,
}

/// A unit that was compared: its address, which table is finer, and both tables.
struct Unit {
    address: u64,
    finer: Finer,
    tables: [Vec<u8>; 2],
}

impl Comparison {
    /// A picture of these settings, which are accepted ones, without units.
    pub fn new(&Settings { ctu, width, height, .. }: &Settings) -> Self {
        Self { ctu, width, height, units: Vec::new() }
    }

    /// Adds a unit with both tables.
    pub fn add(&mut self, address: u64, finer: Finer, tables: [Vec<u8>; 2]) {
        self.units.push(Unit { address, finer, tables });
    }

    /// Writes an SVG document; a unit's title says which table is finer.
    ///
    /// # Errors
    ///
    /// What the output answers.
    pub fn write(&self, out: &mut dyn Write) -> io::Result<()> {
        let Self { ctu, width, height, ref units } = *self;
        let scale = display_scale(width.max(height));
        let legend = u64::from(LINE_HEIGHT) * CLASSES.len() as u64;
        let across = (u64::from(width + 2) * u64::from(scale)).max(LEGEND_WIDTH);
        let down = u64::from(height + GAP + 2) * u64::from(scale) + legend;
        write_head([across, down], scale, &style(scale), out)?;
        write_ground((width, height), out)?;
        units.iter().try_for_each(|unit| write_unit(unit, out))?;
        write_grid("unit", ctu, (width, height), out)?;
        write_legend(height + GAP, scale, out)?;
        writeln!(out, "</svg>")
    }
}

/// The style of the edges and of the legend's text.
fn style(scale: u32) -> String {
    let mut style = String::new();
    for (class, colour, width, _) in CLASSES {
        let width = seen(width, scale);
        style += &format!(".{class}{{fill:none;stroke:{colour};stroke-width:{width}}}");
    }
    style + &format!("text{{font:{}px sans-serif;fill:#10202e}}", seen(TEXT_SIZE, scale))
}

/// The edges of a unit, by whose they are.
fn write_unit(unit: &Unit, out: &mut dyn Write) -> io::Result<()> {
    let Unit { address, finer, tables } = unit;
    writeln!(out, "<g><title>unit {address}: {finer}</title>")?;
    let [first, second] = tables.each_ref().map(|table| of_table(table));
    let edges = [&first & &second, &first - &second, &second - &first];
    for ((class, ..), edges) in CLASSES.iter().zip(&edges).filter(|(_, edges)| !edges.is_empty()) {
        writeln!(out, "<path class=\"{class}\" d=\"{}\"/>", path(edges))?;
    }
    writeln!(out, "</g>")
}

/// A stroke of each colour, and what it means, from this line of samples on.
fn write_legend(top: u32, scale: u32, out: &mut dyn Write) -> io::Result<()> {
    let (end, x) = (seen(STROKE, scale), seen(TEXT, scale));
    for (line, (class, _, _, meaning)) in (0..).zip(CLASSES) {
        let middle = f64::from(LINE_HEIGHT * line) + f64::from(LINE_HEIGHT) / 2.0;
        let y = f64::from(top) + seen(middle, scale);
        writeln!(out, "<path class=\"{class}\" d=\"M0 {y}H{end}\"/>")?;
        writeln!(out, "<text x=\"{x}\" y=\"{y}\" dy=\"0.35em\">{meaning}</text>")?;
    }
    Ok(())
}
