//! The text that is printed, which can be read again.

use std::io::{self, Write};

use colwythar::Row;

use crate::{Context, Picture, Sum, Unit};

/// The file's name, where there are several files.
pub fn heading(context: &mut Context<'_>) -> io::Result<()> {
    if context.several {
        writeln!(context.out, "# {}", context.name)?;
    }
    Ok(())
}

/// The picture line.
pub fn picture(picture: &Picture, out: &mut dyn Write) -> io::Result<()> {
    write!(out, "{}", picture.word())?;
    for number in picture.numbers() {
        write!(out, " {number}")?;
    }
    writeln!(out)
}

/// The names of the columns.
pub fn header(out: &mut dyn Write) -> io::Result<()> {
    out.write_all(b"#  unit      x      y  width height  qt mtt\n")
}

/// The rows of a unit: address, x, y, width, height, QT depth, MTT depth.
pub fn rows(unit: &Unit<'_>, out: &mut dyn Write) -> io::Result<()> {
    for row in unit.rows() {
        out.write_all(&row_line(unit.address, row))?;
    }
    Ok(())
}

/// A row in its columns. Accepted units have addresses of seven digits at most.
fn row_line(address: u64, row: Row) -> [u8; 44] {
    let mut line = [b' '; 44];
    line[43] = b'\n';
    let (columns, depths) = line.split_at_mut(35);
    put_number(&mut columns[..7], address);
    put_number(&mut columns[7..14], row.x.into());
    put_number(&mut columns[14..21], row.y.into());
    put_number(&mut columns[21..28], row.width().into());
    put_number(&mut columns[28..], row.height().into());
    put_number(&mut depths[..4], row.qt_depth.into());
    put_number(&mut depths[4..8], row.mtt_depth.into());
    line
}

/// Puts a number's digits at the end of a column. `write!` takes ten times as long.
fn put_number(column: &mut [u8], number: u64) {
    let mut rest = number;
    for place in column.iter_mut().rev() {
        *place = b'0' + (rest % 10) as u8;
        rest /= 10;
        if rest == 0 {
            break;
        }
    }
}

/// A unit line.
pub fn unit_line(unit: &Unit<'_>, out: &mut dyn Write) -> io::Result<()> {
    write!(out, "unit {}:", unit.address)?;
    for &flag in unit.flags {
        out.write_all(&[b' ', b'0' + flag])?;
    }
    writeln!(out)
}

/// What was accepted, and what is due.
pub fn sum(sum: &Sum, out: &mut dyn Write) -> io::Result<()> {
    let (units, rows) = (counted(sum.units, "unit"), counted(sum.rows, "row"));
    write!(out, "# {units}, {rows}")?;
    match sum.due {
        None => writeln!(out),
        Some((due, count)) if due == count => writeln!(out, "; the picture is complete"),
        Some((due, count)) => writeln!(out, "; unit {due} of {count} is due"),
    }
}

/// A number with its noun, which has an s but after 1.
fn counted(number: u64, noun: &str) -> String {
    let s = if number == 1 { "" } else { "s" };
    format!("{number} {noun}{s}")
}
