//! Where the program writes to.

use std::ffi::OsString;
use std::fs::File;
use std::io::{self, BufWriter, Write};

use crate::run::name_of;
use crate::{Complaint, Context};

/// How much is gathered before it is written.
const GATHERED: usize = 1 << 16;

/// Writes a line to standard error, in one piece. Where it cannot be written, nobody is told.
pub fn say(err: &mut dyn Write, message: &str) {
    let _ = err.write_all(format!("colwythar: {message}\n").as_bytes());
}

/// Says what was not accepted of a file, on standard error: a drawing, a page and the answers to two
/// files have no place for it.
pub fn say_complaint(complaint: &Complaint, context: &mut Context<'_>) -> io::Result<()> {
    say(context.err, &format!("{}: {complaint}", context.name));
    Ok(())
}

/// Standard output, or the file of a drawing; `-` is standard output there, too.
pub struct Output {
    pub name: String,
    pub writer: BufWriter<Box<dyn Write>>,
}

impl Output {
    pub fn new(path: Option<OsString>) -> Self {
        match path.filter(|path| path != "-") {
            None => Self::over("standard output".to_string(), Box::new(io::stdout().lock())),
            Some(path) => {
                let name = name_of(&path);
                Self::over(name, Box::new(LateFile { path, file: None }))
            }
        }
    }

    fn over(name: String, writer: Box<dyn Write>) -> Self {
        Self { name, writer: BufWriter::with_capacity(GATHERED, writer) }
    }
}

/// A file that is made when something is written to it.
struct LateFile {
    path: OsString,
    file: Option<File>,
}

impl Write for LateFile {
    fn write(&mut self, bytes: &[u8]) -> io::Result<usize> {
        let file = match &mut self.file {
            Some(file) => file,
            None => self.file.insert(File::create(&self.path)?),
        };
        file.write(bytes)
    }

    fn flush(&mut self) -> io::Result<()> {
        self.file.as_mut().map_or(Ok(()), File::flush)
    }
}
