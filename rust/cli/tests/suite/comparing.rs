//! Two files compared; what is expected was written down by hand.

use std::ffi::OsStr;
use std::fs;

use crate::program::{fresh_path, run, run_with, sample, Ran, P1};

/// Two units of 32 by 32.
pub const TWO: &str = "picture 32 4 8 3 32 32 64 32\n";

/// The first one in halves, one above the other or side by side, in quarters, and as one block.
pub const ABOVE: &str = "0 0 0 32 16 0 1\n0 0 16 32 16 0 1\n";
pub const BESIDE: &str = "0 0 0 16 32 0 1\n0 16 0 16 32 0 1\n";
pub const QUARTERS: &str =
    "0 0 0 16 16 1 0\n0 16 0 16 16 1 0\n0 0 16 16 16 1 0\n0 16 16 16 16 1 0\n";
pub const WHOLE: &str = "0 0 0 32 32 0 0\n";

/// The second one as one block, and in halves.
pub const SECOND: &str = "1 32 0 32 32 0 0\n";
pub const SECOND_ABOVE: &str = "1 32 0 32 16 0 1\n1 32 16 32 16 0 1\n";

/// Compares two pictures with these units. A name is given to the first file, the second is standard
/// input.
fn compare(name: &str, first: &str, second: &str) -> Ran {
    let [first, second] = [first, second].map(|units| format!("{TWO}{units}"));
    compare_files(name, &first, &second)
}

/// The same of whole files.
fn compare_files(name: &str, first: &str, second: &str) -> Ran {
    let path = fresh_path(name);
    fs::write(&path, first).expect("a file");
    run_with(&[OsStr::new("compare"), path.as_os_str(), OsStr::new("-")], second.as_bytes())
}

/// What is said of lines of standard input.
fn said(complaint: &str) -> String {
    format!("colwythar: standard input: {complaint}\n")
}

#[test]
fn each_answer() {
    for (first, second, answer) in [
        (QUARTERS, QUARTERS, "equal blocks"),
        (QUARTERS, ABOVE, "first finer"),
        (WHOLE, BESIDE, "second finer"),
        (ABOVE, BESIDE, "neither finer"),
    ] {
        let ran = compare("answer.txt", first, second);
        assert_eq!(ran, Ran::accepted(&format!("unit 0: {answer}\n")), "{first} {second}");
    }
}

/// Flags beside rows.
#[test]
fn units_by_their_flags() {
    let flags = "unit 0: 1 1 0 0 0 0\nunit 1: 0\n";
    let out = "unit 0: first finer\nunit 1: equal blocks\n";
    assert_eq!(compare("flags.txt", flags, &[BESIDE, SECOND].concat()), Ran::accepted(out));
}

#[test]
fn the_order_is_the_first_files() {
    let first = [SECOND_ABOVE, ABOVE].concat();
    let second = [WHOLE, SECOND].concat();
    let out = "unit 1: first finer\nunit 0: first finer\n";
    assert_eq!(compare("order.txt", &first, &second), Ran::accepted(out));
}

/// The first of each unit belong together, then the second ones.
#[test]
fn units_that_stand_twice() {
    let first = [WHOLE, SECOND, ABOVE, SECOND_ABOVE].concat();
    let second = [SECOND, ABOVE, SECOND, BESIDE].concat();
    let out = "unit 0: second finer\nunit 1: equal blocks\nunit 0: neither finer\n\
               unit 1: first finer\n";
    assert_eq!(compare("twice.txt", &first, &second), Ran::accepted(out));
}

#[test]
fn units_of_one_file_only() {
    let refused = |out: &str| Ran { status: 1, out: out.to_string(), err: String::new() };
    let first = "unit 0: accepted in the first file only\nunit 1: equal blocks\n";
    let ran = compare("only-first.txt", &[WHOLE, SECOND].concat(), SECOND);
    assert_eq!(ran, refused(first));
    let second = "unit 1: equal blocks\nunit 0: accepted in the second file only\n";
    let ran = compare("only-second.txt", SECOND, &[WHOLE, SECOND].concat());
    assert_eq!(ran, refused(second));
    let twice = "unit 0: equal blocks\nunit 0: accepted in the first file only\n";
    let ran = compare("only-twice.txt", &format!("{WHOLE}unit 0: 0\n"), WHOLE);
    assert_eq!(ran, refused(twice));
}

#[test]
fn no_units() {
    assert_eq!(compare("no-units.txt", "", ""), Ran::accepted(""));
}

#[test]
fn refused_units_are_said() {
    let ran =
        compare("refused.txt", &[WHOLE, SECOND].concat(), &[&QUARTERS[16..], SECOND].concat());
    let refusal =
        "lines 2 to 4: unit 0: refusal 16: row 0, counted from 0, is the first that fits \
                   no tree of this unit (it is line 2)";
    let out = "unit 0: accepted in the first file only\nunit 1: equal blocks\n".to_string();
    assert_eq!(ran, Ran { status: 1, out, err: said(refusal) });
}

/// What stands before the line that is not taken is compared.
#[test]
fn a_malformed_line_is_said() {
    let ran = compare("malformed.txt", ABOVE, &format!("{ABOVE}x\n"));
    let word =
        "line 4: a line begins with \"picture\", \"h265\", \"unit\" or a number, a comment with #";
    let out = "unit 0: equal blocks\n".to_string();
    assert_eq!(ran, Ran { status: 1, out, err: said(word) });
}

#[test]
fn other_pictures() {
    let other = said("line 2: other settings than those of the first file");
    let wider = format!("# wider\n{}{WHOLE}", TWO.replace("64 32", "96 32"));
    let ran = compare_files("wider.txt", &format!("{TWO}{WHOLE}"), &wider);
    assert_eq!(ran, Ran::failed(1, &other));
    // A depth that makes no difference to these units is another setting, too.
    let deeper = format!("\n{}{WHOLE}", TWO.replace("8 3 32", "8 4 32"));
    let ran = compare_files("deeper.txt", &format!("{TWO}{WHOLE}"), &deeper);
    assert_eq!(ran, Ran::failed(1, &other));
}

#[test]
fn files_without_a_picture() {
    let nothing = said("nothing to read: a picture line is expected");
    assert_eq!(compare_files("nothing.txt", P1, ""), Ran::failed(1, &nothing));
    assert_eq!(run_with(&["compare", "-", "-"], P1.as_bytes()), Ran::failed(1, &nothing));
    let refused = said("line 1: refusal 1: the CTU side is not 32, 64 or 128");
    let ran = compare_files("bad-picture.txt", P1, "picture 48 4 8 3 32 32 64 64\n");
    // Another picture, before its settings are looked at.
    assert_eq!(ran, Ran::failed(1, &said("line 1: other settings than those of the first file")));
    let p1 = sample("p1.txt");
    let p1 = p1.to_str().expect("a name");
    let ran = run_with(&["compare", "-", p1], b"picture 48 4 8 3 32 32 64 64\n");
    assert_eq!(ran, Ran::failed(1, &refused));
}

#[test]
fn files_that_cannot_be_read() {
    let p1 = sample("p1.txt");
    let p1 = p1.to_str().expect("a name");
    let missing = "colwythar: missing.txt: there is no such file\n";
    assert_eq!(run(&["compare", "missing.txt", p1]), Ran::failed(2, missing));
    assert_eq!(run(&["compare", p1, "missing.txt"]), Ran::failed(2, missing));
}
