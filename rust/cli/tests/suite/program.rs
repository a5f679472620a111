//! The program as a process.

use std::ffi::OsStr;
use std::io::Write;
use std::path::{Path, PathBuf};
use std::process::{Command, Stdio};
use std::thread;

/// P1 of document 01: one block.
pub const P1: &str = "picture 64 4 8 3 32 32 64 64\nunit 0: 0\n";

/// The table of P1.
pub const P1_TABLE: &str = "picture 64 4 8 3 32 32 64 64
#  unit      x      y  width height  qt mtt
      0      0      0     64     64   0   0
# 1 unit, 1 row; the picture is complete
";

/// What a run of the program left.
#[derive(Debug, PartialEq, Eq)]
pub struct Ran {
    pub status: i32,
    pub out: String,
    pub err: String,
}

impl Ran {
    /// Nothing to complain of, and this on standard output.
    pub fn accepted(out: &str) -> Self {
        Self { status: 0, out: out.to_string(), err: String::new() }
    }

    /// Nothing on standard output.
    pub fn failed(status: i32, err: &str) -> Self {
        Self { status, out: String::new(), err: err.to_string() }
    }
}

pub fn command() -> Command {
    Command::new(env!("CARGO_BIN_EXE_colwythar"))
}

/// Runs the program with nothing on standard input.
pub fn run<S: AsRef<OsStr>>(arguments: &[S]) -> Ran {
    run_with(arguments, b"")
}

/// Runs the program with these bytes on standard input.
pub fn run_with<S: AsRef<OsStr>>(arguments: &[S], input: &[u8]) -> Ran {
    let mut command = command();
    command.args(arguments).stdin(Stdio::piped()).stdout(Stdio::piped()).stderr(Stdio::piped());
    let mut child = command.spawn().expect("the program starts");
    let mut pipe = child.stdin.take().expect("a pipe");
    let output = thread::scope(|scope| {
        // The program may stop reading early, and then this pipe is closed.
        scope.spawn(move || pipe.write_all(input));
        child.wait_with_output().expect("the program ends")
    });
    Ran {
        status: output.status.code().expect("no signal ended the program"),
        out: String::from_utf8(output.stdout).expect("text"),
        err: String::from_utf8(output.stderr).expect("text"),
    }
}

/// A file of the stored texts, or their folder.
pub fn data(name: &str) -> PathBuf {
    Path::new(env!("CARGO_MANIFEST_DIR")).join("tests/data").join(name)
}

/// A stored drawing.
pub fn drawing(name: &str) -> PathBuf {
    Path::new(env!("CARGO_MANIFEST_DIR")).join("tests/drawings").join(name)
}

/// A file or folder of `samples`.
pub fn sample(name: &str) -> PathBuf {
    Path::new(env!("CARGO_MANIFEST_DIR")).join("../../samples").join(name)
}

/// A path for a file that a test writes, where no file is yet.
pub fn fresh_path(name: &str) -> PathBuf {
    let path = Path::new(env!("CARGO_TARGET_TMPDIR")).join(name);
    let _ = std::fs::remove_file(&path);
    path
}
