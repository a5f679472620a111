//! The command line.

use std::ffi::OsString;

use crate::commands::{Entry, COMMANDS};
use crate::help;

/// What the command line asks for.
pub enum Request {
    /// The help text, of one subcommand or of all.
    Help(Option<&'static Entry>),
    Version,
    Files {
        entry: &'static Entry,
        files: Vec<OsString>,
        /// What `-o` names.
        output: Option<OsString>,
    },
}

/// Why the command line is not understood.
pub enum Misuse {
    /// No subcommand, or not as many files as it takes.
    Incomplete(Option<&'static Entry>),
    /// Something else, in one line.
    Wrong(String),
}

/// Takes the command line apart, without the program's name.
pub fn parse(mut arguments: impl Iterator<Item = OsString>) -> Result<Request, Misuse> {
    let Some(first) = arguments.next() else {
        return Err(Misuse::Incomplete(None));
    };
    if let Some(request) = asked(&first, None) {
        return Ok(request);
    }
    match COMMANDS.iter().find(|entry| first == entry.name) {
        Some(entry) => of_command(entry, arguments),
        None if is_option(&first) => Err(unknown_option(&first)),
        None => {
            let name = first.to_string_lossy();
            Err(Misuse::Wrong(format!("there is no command {name:?}; {}", help::HINT)))
        }
    }
}

/// What follows a subcommand. Options and files stand in any order.
fn of_command(
    entry: &'static Entry,
    mut arguments: impl Iterator<Item = OsString>,
) -> Result<Request, Misuse> {
    let (mut files, mut output) = (Vec::new(), None);
    while let Some(argument) = arguments.next() {
        if let Some(request) = asked(&argument, Some(entry)) {
            return Ok(request);
        }
        if argument == "-o" && entry.drawing.is_some() {
            take_output(&mut output, arguments.next())?;
        } else if argument == "--" {
            files.extend(arguments.by_ref());
        } else if is_option(&argument) {
            return Err(unknown_option(&argument));
        } else {
            files.push(argument);
        }
    }
    if !entry.takes(files.len()) {
        return Err(Misuse::Incomplete(Some(entry)));
    }
    Ok(Request::Files { entry, files, output })
}

/// Help or version, which stand alone or after a subcommand.
fn asked(argument: &OsString, entry: Option<&'static Entry>) -> Option<Request> {
    match argument.to_str()? {
        "--help" | "-h" => Some(Request::Help(entry)),
        "--version" | "-V" => Some(Request::Version),
        _ => None,
    }
}

/// The name after `-o`.
fn take_output(output: &mut Option<OsString>, path: Option<OsString>) -> Result<(), Misuse> {
    let Some(path) = path else {
        let message = format!("-o is to name {}; {}", help::DRAWING, help::HINT);
        return Err(Misuse::Wrong(message));
    };
    match output.replace(path) {
        None => Ok(()),
        Some(_) => Err(Misuse::Wrong(format!("-o is given twice; {}", help::HINT))),
    }
}

/// `-` alone is a file: standard input.
fn is_option(argument: &OsString) -> bool {
    argument.as_encoded_bytes().starts_with(b"-") && argument != "-"
}

fn unknown_option(argument: &OsString) -> Misuse {
    let name = argument.to_string_lossy();
    Misuse::Wrong(format!("there is no option {name:?} here; {}", help::HINT))
}
