//! How long lines, tables and numbers may be.

use crate::program::{run_with, P1};

const PICTURE: &str = "picture 64 4 8 3 32 32 64 64\n";

/// The last line that `table` prints, after a picture line that is accepted.
fn last_line(rest: &str) -> String {
    let ran = run_with(&["table", "-"], [PICTURE, rest].concat().as_bytes());
    assert_eq!((ran.status, ran.err.as_str()), (1, ""));
    ran.out.lines().last().expect("a line").to_string()
}

fn flags(count: usize) -> String {
    format!("unit 0:{}\n", " 0".repeat(count))
}

#[test]
fn many_flags() {
    for count in [10_000, 65_535] {
        let ran = run_with(&["flags", "-"], [PICTURE, &flags(count)].concat().as_bytes());
        let refusal = "refusal 13: too many flags, the first that is too many is flag 1";
        assert_eq!(ran.out, format!("{PICTURE}# line 2: unit 0: {refusal}, counted from 0\n"));
        assert_eq!(ran.status, 1);
    }
    let most = "# line 2: flag 65535, counted from 0: a unit line has at most 65535 flags";
    assert_eq!(last_line(&flags(65_536)), most);
}

#[test]
fn many_rows() {
    let rows = |count| "0 0 0 64 64 0 0\n".repeat(count);
    let ran = run_with(&["flags", "-"], [PICTURE, &rows(2048)].concat().as_bytes());
    let refused = "# lines 2 to 2049: unit 0: refusal 28: too many rows, the first that is too \
                   many is row 1, counted from 0 (it is line 3)\n";
    assert_eq!(ran.out, format!("{PICTURE}{refused}"));
    let most = "# line 2050: row 2048 of unit 0, counted from 0: a table has at most 2048 rows";
    assert_eq!(last_line(&rows(2049)), most);
}

#[test]
fn long_lines() {
    let long = |line: &str, bytes: usize| format!("{line}{}\n", " ".repeat(bytes - line.len()));
    let too_long = |line| format!("# line {line}: a line has at most 1048576 bytes");
    for begin in ["#", "", "unit 0: 0", "0 0 0 64 64 0 0"] {
        let ran = run_with(&["table", "-"], [PICTURE, &long(begin, 1 << 20)].concat().as_bytes());
        assert_eq!(ran.status, 0, "{begin}");
        assert_eq!(last_line(&long(begin, (1 << 20) + 1)), too_long(2), "{begin}");
        assert_eq!(last_line(&long(begin, 2_000_000)), too_long(2), "{begin}");
    }
    // The row before is part of the table that the long line cuts off.
    let cut = format!("0 0 0 64 64 0 0\n{}", long("0 0", 2_000_000));
    assert_eq!(last_line(&cut), too_long(3));
    assert!(!run_with(&["flags", "-"], [PICTURE, &cut].concat().as_bytes())
        .out
        .contains("unit 0:"));
}

#[test]
fn a_line_that_does_not_end() {
    let ran = run_with(&["table", "-"], &vec![0; 50_000_000]);
    assert_eq!(ran.out, "# line 1: a line has at most 1048576 bytes\n");
}

#[test]
fn large_addresses() {
    let largest =
        "# line 2: unit 4294967295: refusal 10: the picture has no such unit (it has 1 unit)";
    let ran = run_with(&["flags", "-"], format!("{PICTURE}4294967295 0 0 4 4 0 0").as_bytes());
    assert_eq!(ran.out, format!("{PICTURE}{largest}\n"));
    let larger = "# line 2: a unit's address is at most 4294967295";
    assert_eq!(last_line("4294967296 0 0 4 4 0 0\n"), larger);
    assert_eq!(last_line("unit 99999999999999999999999: 0\n"), larger);
}

#[test]
fn the_number_of_units_is_said() {
    let text = "picture 64 4 8 3 32 32 72 72\n4 0 0 64 64 0 0\n";
    let ran = run_with(&["flags", "-"], text.as_bytes());
    let refusal = "refusal 10: the picture has no such unit (it has 4 units)";
    assert!(ran.out.ends_with(&format!("# line 2: unit 4: {refusal}\n")), "{}", ran.out);
}

#[test]
fn lines_after_a_malformed_one_are_not_looked_at() {
    assert_eq!(last_line("unit 0: 0\nx\nunit 0: 0\n"), last_line("unit 0: 0\nx\n"));
    assert_eq!(last_line(P1), "# line 2: a second picture line; a file has one");
}
