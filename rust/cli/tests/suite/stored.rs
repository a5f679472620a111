//! Each stored file, and what the program must print for it.

use std::ffi::OsStr;
use std::fs;
use std::path::{Path, PathBuf};

use crate::program::{data, run, sample, Ran};

/// A file's expected output stands beside it, under the name of the command.
const COMMANDS: [&str; 3] = ["table", "flags", "page"];

#[test]
fn data_prints_what_is_stored() {
    assert_eq!(check_folder(&data("")), (67, 97));
}

#[test]
fn samples_print_what_is_stored() {
    assert_eq!(check_folder(&sample("")), (23, 27));
}

/// Checks each text file of a folder. Answers how many there are, and how many runs were compared.
fn check_folder(folder: &Path) -> (usize, usize) {
    let paths: Vec<PathBuf> = fs::read_dir(folder)
        .expect("a folder")
        .map(|entry| entry.expect("an entry").path())
        .collect();
    let texts = paths.iter().filter(|path| path.extension() == Some(OsStr::new("txt")));
    let runs: Vec<usize> = texts.map(|path| check_file(path)).collect();
    let pairs = paths.iter().filter(|path| path.extension() == Some(OsStr::new("compare")));
    let compared = runs.iter().sum::<usize>() + pairs.map(|path| check_pair(path)).sum::<usize>();
    assert!(runs.iter().all(|&runs| runs > 0), "a file without expected output");
    assert_eq!(paths.len(), runs.len() + compared, "a file that belongs to no other");
    (runs.len(), compared)
}

/// Answers with how many stored outputs the file was compared.
fn check_file(path: &Path) -> usize {
    let mut compared = 0;
    for command in COMMANDS {
        let stored = path.with_extension(command);
        if stored.exists() {
            let out = fs::read_to_string(&stored).expect("stored output");
            let ran = run(&[OsStr::new(command), path.as_os_str()]);
            assert_eq!(
                ran,
                Ran { status: expected_status(&out), out, err: String::new() },
                "{stored:?}"
            );
            compared += 1;
        }
    }
    compared
}

/// The answers to two files stand beside them, under what their names have in common. One run is
/// compared.
fn check_pair(stored: &Path) -> usize {
    let stem = stored.file_stem().expect("a name").to_str().expect("text");
    let [first, second] =
        ["first", "second"].map(|place| stored.with_file_name(format!("{stem}-{place}.txt")));
    let out = fs::read_to_string(stored).expect("stored output");
    let ran = run(&[OsStr::new("compare"), first.as_os_str(), second.as_os_str()]);
    assert_eq!(ran, Ran::accepted(&out), "{stored:?}");
    1
}

/// 1 where the stored output has a complaint.
fn expected_status(out: &str) -> i32 {
    let complaints = ["# line", "# nothing to read"];
    let complains = |line: &str| complaints.iter().any(|front| line.starts_with(front));
    i32::from(out.lines().any(complains))
}
