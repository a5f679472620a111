//! Output that cannot be written.

use std::fs::{self, File};
use std::io::Read;
use std::path::{Path, PathBuf};
use std::process::{Output, Stdio};

use crate::program::{command, fresh_path, run, run_with, sample, Ran, P1};

const FULL: &str = "No space left on device";

/// Runs a subcommand with these files, and closes its standard output after a few bytes.
fn assert_closed_early(name: &str, files: &[PathBuf]) {
    let mut command = command();
    command.arg(name).args(files).stdout(Stdio::piped()).stderr(Stdio::piped());
    let mut child = command.spawn().expect("it starts");
    let mut pipe = child.stdout.take().expect("a pipe");
    pipe.read_exact(&mut [0; 10]).expect("some bytes");
    drop(pipe);
    let ended = child.wait_with_output().expect("it ends");
    assert_eq!(ended.stderr, b"", "{name}");
    assert_eq!(ended.status.code(), Some(2), "{name}");
}

#[test]
fn a_pipe_that_is_closed_early() {
    for name in ["table", "flags", "page", "draw"] {
        assert_closed_early(name, &vec![sample("camera.txt"); 100]);
    }
    // More units than a pipe takes lines.
    let path = fresh_path("many-units.txt");
    let row = |unit| format!("{unit} {} {} 32 32 0 0\n", unit % 100 * 32, unit / 100 * 32);
    let rows: String = (0..10_000).map(row).collect();
    fs::write(&path, format!("picture 32 4 8 3 32 32 3200 3200\n{rows}")).expect("a file");
    assert_closed_early("compare", &[path.clone(), path]);
}

#[test]
fn a_device_that_is_full() {
    if !Path::new("/dev/full").exists() {
        return;
    }
    let p1 = sample("p1.txt");
    let p1 = p1.to_str().expect("a name");
    let compare = ["compare", "-", p1];
    for arguments in [
        &["table", "-"][..],
        &["flags", "-"],
        &["page", "-"],
        &["draw", "-"],
        &compare,
        &["--help"],
    ] {
        let full = File::options().write(true).open("/dev/full").expect("the device");
        let path = fresh_path(&format!("full-{}.txt", arguments[0]));
        fs::write(&path, P1).expect("a file");
        let input = File::open(path).expect("the file");
        let Output { status, stderr, .. } =
            command().args(arguments).stdin(input).stdout(full).output().expect("it runs");
        let message = String::from_utf8(stderr).expect("text");
        assert!(message.starts_with(&format!("colwythar: standard output: {FULL}")), "{message}");
        assert_eq!((status.code(), message.lines().count()), (Some(2), 1));
    }
    for arguments in [&["draw", "-"][..], &compare] {
        let ran = run_with(&[arguments, &["-o", "/dev/full"]].concat(), P1.as_bytes());
        assert!(ran.err.starts_with(&format!("colwythar: /dev/full: {FULL}")), "{}", ran.err);
        assert_eq!(ran.status, 2);
    }
}

#[test]
fn a_drawing_into_a_file() {
    let path = fresh_path("drawing.svg");
    let name = path.to_str().expect("a name");
    assert_eq!(run_with(&["draw", "-o", name, "-"], P1.as_bytes()), Ran::accepted(""));
    let svg = fs::read_to_string(&path).expect("the drawing");
    assert_eq!(run_with(&["draw", "-"], P1.as_bytes()), Ran::accepted(&svg));
    assert_eq!(run_with(&["draw", "-", "-o", "-"], P1.as_bytes()), Ran::accepted(&svg));
}

#[test]
fn no_file_is_made_for_no_drawing() {
    let path = fresh_path("no-drawing.svg");
    let name = path.to_str().expect("a name");
    let line = "standard input: line 1: refusal 1: the CTU side is not 32, 64 or 128";
    let ran = run_with(&["draw", "-", "-o", name], P1.replacen("64", "48", 1).as_bytes());
    assert_eq!(ran, Ran::failed(1, &format!("colwythar: {line}\n")));
    assert_eq!(run(&["draw", "missing.txt", "-o", name]).status, 2);
    assert!(!path.exists());
}

#[test]
fn a_drawing_that_cannot_be_made() {
    let ran = run_with(&["draw", "-", "-o", "missing/out.svg"], P1.as_bytes());
    assert!(ran.err.starts_with("colwythar: missing/out.svg: "), "{}", ran.err);
    assert_eq!((ran.status, ran.out.as_str()), (2, ""));
}
