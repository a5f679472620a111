//! The drawing: one rectangle a coding block, darker the deeper, and over them the grids of units
//! and, dashed, of pipeline units; and that of a comparison.

mod comparison;

use std::io::{self, Write};

use colwythar::Row;

pub use comparison::Comparison;

/// The space between two pictures, in samples.
const GAP: u32 = 8;

/// A picture and the coding blocks of its units.
pub struct Picture {
    ctu: u32,
    pipeline_side: u32,
    width: u32,
    height: u32,
    /// The blocks, in the order in which they are drawn.
    pub blocks: Vec<Block>,
}

/// A coding block of a unit.
#[derive(Clone, Copy, Debug, PartialEq, Eq)]
pub struct Block {
    /// Address of the unit.
    pub unit: u64,
    /// Its place, size and depths.
    pub row: Row,
}

impl Picture {
    /// A picture without blocks. The settings are accepted ones.
    pub fn new(picture: &crate::Picture) -> Self {
        let ((ctu, pipeline_side), (width, height)) = (picture.sides(), picture.size());
        Self { ctu, pipeline_side, width, height, blocks: Vec::new() }
    }
}

/// Writes an SVG document with the pictures one below another; a block's title says its unit,
/// place, size and depths.
///
/// # Errors
///
/// What the output answers.
pub fn write(pictures: &[Picture], out: &mut dyn Write) -> io::Result<()> {
    let longest = pictures.iter().map(|picture| picture.width.max(picture.height)).max();
    let scale = display_scale(longest.unwrap_or(0));
    let width = pictures.iter().map(|picture| u64::from(picture.width)).max().unwrap_or(0) + 2;
    let heights: u64 = pictures.iter().map(|picture| u64::from(picture.height)).sum();
    let height = heights + u64::from(GAP) * (pictures.len() as u64).saturating_sub(1) + 2;
    let size = [width, height].map(|side| side * u64::from(scale));
    write_head(size, scale, &block_style(scale), out)?;
    let mut y = 0;
    for picture in pictures {
        writeln!(out, "<g transform=\"translate(0 {y})\">")?;
        write_picture(picture, out)?;
        writeln!(out, "</g>")?;
        y += u64::from(picture.height + GAP);
    }
    writeln!(out, "</svg>")
}

/// Small pictures are shown larger.
fn display_scale(longest: u32) -> u32 {
    (640 / (longest + 2)).clamp(1, 6)
}

/// The size of the whole on the screen, with a margin of one sample, and the style: that of what is
/// drawn, and that of frame and units.
fn write_head(size: [u64; 2], scale: u32, style: &str, out: &mut dyn Write) -> io::Result<()> {
    let [width, height] = size;
    let [across, down] = size.map(|side| seen(side as f64, scale));
    writeln!(
        out,
        "<svg xmlns=\"http://www.w3.org/2000/svg\" width=\"{width}\" height=\"{height}\" \
         viewBox=\"-1 -1 {across} {down}\">"
    )?;
    writeln!(
        out,
        "<style>{style}.unit{{fill:none;stroke:#10202e;stroke-width:{}}}\
         .picture{{fill:#fff;stroke:none}}</style>",
        seen(1.6, scale)
    )
}

/// A length on the screen in samples: line widths are the same, whatever the size of the picture.
fn seen(length: f64, scale: u32) -> f64 {
    length / f64::from(scale)
}

/// The style of blocks and pipeline units.
fn block_style(scale: u32) -> String {
    format!(
        ".block{{stroke:#1b3a57;stroke-width:{}}}\
         .pipeline{{fill:none;stroke:#c2571a;stroke-width:{};stroke-dasharray:{} {}}}",
        seen(0.6, scale),
        seen(1.0, scale),
        seen(4.0, scale),
        seen(3.0, scale)
    )
}

fn write_picture(picture: &Picture, out: &mut dyn Write) -> io::Result<()> {
    let Picture { ctu, pipeline_side, width, height, ref blocks } = *picture;
    write_ground((width, height), out)?;
    for block in blocks {
        write_block(block, out)?;
    }
    write_grid("unit", ctu, (width, height), out)?;
    // over the units' lines: the dashes show where both grids have a line
    write_grid("pipeline", pipeline_side, (width, height), out)
}

/// The picture's area.
fn write_ground((width, height): (u32, u32), out: &mut dyn Write) -> io::Result<()> {
    writeln!(out, "<rect class=\"picture\" width=\"{width}\" height=\"{height}\"/>")
}

fn write_block(block: &Block, out: &mut dyn Write) -> io::Result<()> {
    let Block { unit, row } = block;
    let Row { x, y, qt_depth, mtt_depth, .. } = row;
    let (width, height) = (row.width(), row.height());
    writeln!(
        out,
        "<rect class=\"block\" x=\"{x}\" y=\"{y}\" width=\"{width}\" height=\"{height}\" \
         fill=\"hsl(207 46% {}%)\"><title>unit {unit}: {width} by {height} at {x}, {y}; \
         QT depth {qt_depth}, MTT depth {mtt_depth}</title></rect>",
        lightness(u32::from(*qt_depth) + u32::from(*mtt_depth))
    )
}

/// Darker the deeper; a unit's blocks are eleven splits deep at most.
fn lightness(depth: u32) -> u32 {
    95 - 5 * depth.min(11)
}

/// The lines of a grid and the picture's frame.
fn write_grid(
    class: &str,
    side: u32,
    (width, height): (u32, u32),
    out: &mut dyn Write,
) -> io::Result<()> {
    write!(out, "<path class=\"{class}\" d=\"M0 0H{width}V{height}H0Z")?;
    for x in (side..width).step_by(side as usize) {
        write!(out, "M{x} 0V{height}")?;
    }
    for y in (side..height).step_by(side as usize) {
        write!(out, "M0 {y}H{width}")?;
    }
    writeln!(out, "\"/>")
}
