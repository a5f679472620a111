//! What the program prints can be read again.

use std::ffi::OsStr;
use std::fs;
use std::path::PathBuf;

use crate::program::{run, run_with, sample};

/// All lines but comments.
fn without_comments(text: &str) -> Vec<&str> {
    text.lines().filter(|line| !line.starts_with('#')).collect()
}

/// The texts of `samples`.
fn texts() -> Vec<PathBuf> {
    let entries = fs::read_dir(sample("")).expect("a folder");
    let paths = entries.map(|entry| entry.expect("an entry").path());
    paths.filter(|path| path.extension() == Some(OsStr::new("txt"))).collect()
}

#[test]
fn rows_to_flags_to_rows() {
    let texts = texts();
    assert_eq!(texts.len(), 23);
    for path in texts {
        let table = run(&[OsStr::new("table"), path.as_os_str()]).out;
        let flags = run_with(&["flags", "-"], table.as_bytes());
        assert_eq!((flags.status, flags.err.as_str()), (0, ""), "{path:?}");
        let direct = run(&[OsStr::new("flags"), path.as_os_str()]).out;
        assert_eq!(without_comments(&flags.out), without_comments(&direct), "{path:?}");
        check_way_back(&table, &flags.out, path.ends_with("p5-rows.txt"));
    }
}

/// The flags give the same rows. Where the file has unit 1 only, the session awaits unit 0 first.
fn check_way_back(table: &str, flags: &str, second_only: bool) {
    let again = run_with(&["table", "-"], flags.as_bytes());
    if second_only {
        assert!(again.out.contains("# line 2: unit 1: refusal 21: another unit is due, unit 0\n"));
        assert_eq!(again.status, 1);
        return;
    }
    assert_eq!(again.status, 0);
    assert_eq!(without_comments(&again.out), without_comments(table));
}

/// A file beside the table that is printed of it: the units that are accepted have equal blocks.
#[test]
fn a_file_and_its_table() {
    let mut units = 0;
    for path in texts() {
        let table = run(&[OsStr::new("table"), path.as_os_str()]).out;
        if table.starts_with("h265") {
            continue;
        }
        let flags = run_with(&["flags", "-"], table.as_bytes()).out;
        let addresses =
            flags.lines().filter_map(|line| line.strip_prefix("unit ")?.split_once(':'));
        let answers: String =
            addresses.map(|(address, _)| format!("unit {address}: equal blocks\n")).collect();
        let compare = [OsStr::new("compare"), path.as_os_str(), OsStr::new("-")];
        assert_eq!(run_with(&compare, table.as_bytes()).out, answers, "{path:?}");
        units += answers.lines().count();
    }
    // 135 of them are the camera's.
    assert_eq!(units, 174);
}
