//! The help text.

use std::slice;

use crate::commands::{Entry, COMMANDS};

/// How to get help.
pub const HINT: &str = "see colwythar --help";

/// What `-o` names.
pub const DRAWING: &str = "OUT.svg";

/// The name and the number of this version.
pub const VERSION: &str = concat!("colwythar ", env!("CARGO_PKG_VERSION"), "\n");

/// What the files are, and the rest that holds for all subcommands.
const COMMON: &str = "
A FILE is text, and - is standard input. It gives its picture first, then units, for example:

  picture 64 4 8 3 32 32 64 64
  unit 0: 1 0 0 0 0

  picture   CTU MinCb MinQt M MaxBt MaxTt width height
  h265      CTU MinCb width height: in its place, a picture in H.265, which has no page and is not
            compared
  unit      the unit's address and split flags; unit lines stand in the order of the addresses
  a row     unit, x, y, width, height, QT depth, MTT depth; all rows of a unit stand together
  #         begins a comment

A unit is given by its flags or by its rows.

  -o NAME         write the drawing to this file; compare draws where it is given
  -h, --help      print this text
  -V, --version   print the version
  --              end the options

The exit status is 0 where everything was accepted, 1 where something was refused or malformed, or
accepted in one of two compared files only, and 2 for wrong usage and for what cannot be read or
written.
";

/// The help text, of one subcommand or of all.
pub fn text(entry: Option<&'static Entry>) -> String {
    let entries = chosen(entry);
    let width = entries.iter().map(|entry| synopsis(entry).len()).max().unwrap_or(0);
    let mut text =
        "Split flags of H.266 and H.265 coding tree units to coding blocks, and back.\n\n"
            .to_string();
    for entry in entries {
        text += &format!("  {:width$}   {}\n", synopsis(entry), entry.about);
    }
    text + COMMON
}

/// How to use the program, or one subcommand, in a few lines.
pub fn usage(entry: Option<&'static Entry>) -> String {
    let mut text = String::new();
    for (i, entry) in chosen(entry).iter().enumerate() {
        let front = if i == 0 { "usage: " } else { "       " };
        text += &format!("{front}{}\n", synopsis(entry));
    }
    text + HINT + "\n"
}

fn chosen(entry: Option<&'static Entry>) -> &'static [Entry] {
    entry.map_or(&COMMANDS, slice::from_ref)
}

fn synopsis(entry: &Entry) -> String {
    let files = entry.files.map_or(" FILE...".to_string(), |count| " FILE".repeat(count));
    let output = entry.drawing.map(|_| format!(" [-o {DRAWING}]")).unwrap_or_default();
    format!("colwythar {}{files}{output}", entry.name)
}
