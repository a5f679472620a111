//! Pages, byte for byte; the lines were written down by hand from the paper.

use crate::program::{run, run_with, sample, Ran};

const P1_PAGE: &str = "     0     0     0  64  64  0  0\n";

const P2_PAGE: &str = "     0     0     0  32  32  1  0
     0    32     0  32  32  1  0
     0     0    32  32  32  1  0
     0    32    32  32  32  1  0
";

/// Two units of 64 by 64.
const TWO: &str = "picture 64 4 8 3 32 32 128 64\n";

fn page_of(text: &str) -> Ran {
    run_with(&["page", "-"], text.as_bytes())
}

/// What is said of lines of standard input.
fn said(complaints: &[&str]) -> String {
    complaints.iter().map(|one| format!("colwythar: standard input: {one}\n")).collect()
}

#[test]
fn flags_and_rows() {
    for name in ["p2.txt", "p2-rows.txt"] {
        let ran = run(&["page".as_ref(), sample(name).as_os_str()]);
        assert_eq!(ran, Ran::accepted(P2_PAGE), "{name}");
    }
}

/// Lines of a page are rows as the program reads them.
#[test]
fn a_page_below_its_picture_line_is_read() {
    let text = format!("picture 64 4 8 3 32 32 64 64\n{P2_PAGE}");
    assert_eq!(page_of(&text), Ran::accepted(P2_PAGE));
}

#[test]
fn several_units_one_after_the_other() {
    let two = format!("{P1_PAGE}     1    64     0  64  64  0  0\n");
    let three = format!("{P1_PAGE}{two}");
    for (units, pages) in [
        ("unit 0: 0\nunit 1: 0\n", &two),
        ("0 0 0 64 64 0 0\n1 64 0 64 64 0 0\n", &two),
        ("0 0 0 64 64 0 0\nunit 0: 0\n1 64 0 64 64 0 0\n", &three),
    ] {
        assert_eq!(page_of(&format!("{TWO}{units}")), Ran::accepted(pages), "{units}");
    }
}

/// The last unit of the picture with the most units.
const LAST: &str = "picture 32 4 8 3 32 32 16384 16384\n262143 16352 16352 32 32 0 0\n";

const LAST_PAGE: &str = "262143 16352 16352  32  32  0  0\n";

#[test]
fn the_last_unit_of_the_largest_picture() {
    assert_eq!(page_of(LAST), Ran::accepted(LAST_PAGE));
}

#[test]
fn several_files_have_no_heading() {
    let p2 = sample("p2.txt");
    let p2 = p2.to_str().expect("a name");
    let pages = format!("{P2_PAGE}{LAST_PAGE}{P2_PAGE}");
    assert_eq!(run_with(&["page", p2, "-", p2], LAST.as_bytes()), Ran::accepted(&pages));
}

#[test]
fn a_damaged_table_is_said_and_left_out() {
    let damaged = "0 0 0 32 32 1 0\n0 0 32 32 32 1 0\n0 32 0 32 32 1 0\n0 32 32 32 32 1 0\n";
    let ran = page_of(&format!("{TWO}{damaged}1 64 0 64 64 0 0\n2 128 0 64 64 0 0\n"));
    let err = said(&[
        "lines 2 to 5: unit 0: refusal 16: row 1, counted from 0, is the first that fits no tree \
         of this unit (it is line 3)",
        "line 7: unit 2: refusal 10: the picture has no such unit (it has 2 units)",
    ]);
    let out = "     1    64     0  64  64  0  0\n".to_string();
    assert_eq!(ran, Ran { status: 1, out, err });
}

#[test]
fn refused_flags_are_said_and_left_out() {
    let ran = page_of(&format!("{TWO}unit 0: 1 0 0 0\nunit 0: 0\nunit 1: 0 0\n"));
    let err = said(&[
        "line 2: unit 0: refusal 11: more flags are needed, there are only 4",
        "line 4: unit 1: refusal 13: too many flags, the first that is too many is flag 1, \
         counted from 0",
    ]);
    assert_eq!(ran, Ran { status: 1, out: P1_PAGE.to_string(), err });
}

#[test]
fn text_that_has_no_page() {
    let failed = |text: &str, complaint: &str| {
        assert_eq!(page_of(text), Ran::failed(1, &said(&[complaint])));
    };
    failed("", "nothing to read: a picture line is expected");
    failed(
        "picture 48 4 8 3 32 32 64 64\n",
        "line 1: refusal 1: the CTU side is not 32, 64 or 128",
    );
    failed("0 0 0 64 64 0 0\n", "line 1: a picture line is expected before this one");
    assert_eq!(page_of(TWO), Ran::accepted(""));
}

#[test]
fn a_file_that_cannot_be_read_is_left_out() {
    let p2 = sample("p2.txt");
    let ran = run(&["page".as_ref(), "missing.txt".as_ref(), p2.as_os_str()]);
    let err = "colwythar: missing.txt: there is no such file\n".to_string();
    assert_eq!(ran, Ran { status: 2, out: P2_PAGE.to_string(), err });
}
