//! The program from its command line to its exit status.

use std::ffi::{OsStr, OsString};
use std::fs::File;
use std::io::{self, BufRead, BufReader, ErrorKind, Write};

use crate::arguments::{self, Misuse, Request};
use crate::commands::{Command, Context, Entry};
use crate::help;
use crate::output::{say, Output};
use crate::reading::{read, Trouble};

/// Everything was accepted.
const ACCEPTED: u8 = 0;
/// Something was refused or malformed, or is missing in a file that is compared.
const REFUSED: u8 = 1;
/// Wrong usage, or something that cannot be read or written.
const FAILED: u8 = 2;

/// How much of a file is read at a time.
const READ_AT_ONCE: usize = 1 << 16;

/// Runs the program with these arguments, its own name left out, and answers the exit status.
pub fn run(arguments: impl Iterator<Item = OsString>) -> u8 {
    match arguments::parse(arguments) {
        Ok(Request::Help(entry)) => print(&help::text(entry)).unwrap_or(FAILED),
        Ok(Request::Version) => print(help::VERSION).unwrap_or(FAILED),
        Ok(Request::Files { entry, files, output }) => {
            handle(entry, &files, output).unwrap_or(FAILED)
        }
        Err(Misuse::Incomplete(entry)) => {
            let _ = io::stderr().write_all(help::usage(entry).as_bytes());
            FAILED
        }
        Err(Misuse::Wrong(message)) => {
            say(&mut io::stderr(), &message);
            FAILED
        }
    }
}

fn print(text: &str) -> Option<u8> {
    written(Output::new(None), |out| out.write_all(text.as_bytes()).map(|()| ACCEPTED))
}

/// Has an output written, and answers the status; nothing where it cannot be written, which is said,
/// unless nobody reads it any more.
fn written(mut output: Output, write: impl FnOnce(&mut dyn Write) -> io::Result<u8>) -> Option<u8> {
    let status = write(&mut output.writer).and_then(|status| {
        output.writer.flush()?;
        Ok(status)
    });
    let said = status.inspect_err(|error| {
        if error.kind() != ErrorKind::BrokenPipe {
            say(&mut io::stderr(), &format!("{}: {error}", output.name));
        }
    });
    said.ok()
}

/// Gives all files to a subcommand, and lets it draw; nothing where an output cannot be written.
fn handle(entry: &Entry, files: &[OsString], drawing: Option<OsString>) -> Option<u8> {
    let mut command = (entry.start)();
    let status = written(Output::new(None), |out| {
        let status = handle_files(command.as_mut(), files, out)?;
        Ok(if command.finish(out)? { status } else { status.max(REFUSED) })
    })?;
    if !entry.draws(drawing.is_some()) {
        return Some(status);
    }
    written(Output::new(drawing), |out| command.draw(out).map(|()| status))
}

/// The status is that of the worst file.
fn handle_files(
    command: &mut dyn Command,
    files: &[OsString],
    out: &mut dyn Write,
) -> io::Result<u8> {
    let mut status = ACCEPTED;
    for path in files {
        let (name, several) = (name_of(path), files.len() > 1);
        let mut context = Context { name: &name, several, out, err: &mut io::stderr() };
        let read = match open(path) {
            Ok(input) => handle_file(input, command, &mut context),
            Err(error) => Err(Trouble::Input(error)),
        };
        status = status.max(match read {
            Ok(true) => ACCEPTED,
            Ok(false) => REFUSED,
            Err(Trouble::Output(error)) => return Err(error),
            Err(Trouble::Input(error)) => {
                say(&mut io::stderr(), &format!("{name}: {}", why(&error)));
                FAILED
            }
        });
    }
    Ok(status)
}

fn handle_file(
    input: Box<dyn BufRead>,
    command: &mut dyn Command,
    context: &mut Context<'_>,
) -> Result<bool, Trouble> {
    command.begin(context).map_err(Trouble::Output)?;
    read(input, command, context)
}

/// Opens a file and reads its beginning: a folder can be opened, but not read.
fn open(path: &OsStr) -> io::Result<Box<dyn BufRead>> {
    let mut input: Box<dyn BufRead> = if path == "-" {
        Box::new(io::stdin().lock())
    } else {
        Box::new(BufReader::with_capacity(READ_AT_ONCE, File::open(path)?))
    };
    input.fill_buf()?;
    Ok(input)
}

/// A file's name on one line, whatever its bytes are.
pub fn name_of(path: &OsStr) -> String {
    if path == "-" {
        return "standard input".to_string();
    }
    let mut name = String::new();
    for letter in path.to_string_lossy().chars() {
        if letter.is_control() {
            name.extend(letter.escape_default());
        } else {
            name.push(letter);
        }
    }
    name
}

/// Why a file cannot be read.
fn why(error: &io::Error) -> String {
    let known = match error.kind() {
        ErrorKind::NotFound => "there is no such file",
        ErrorKind::IsADirectory => "it is a directory",
        ErrorKind::PermissionDenied => "permission is denied",
        ErrorKind::NotADirectory => "a part of the path is no directory",
        _ => return error.to_string(),
    };
    known.to_string()
}
