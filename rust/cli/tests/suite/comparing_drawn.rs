//! Two files compared, and drawn.

use std::ffi::OsStr;
use std::fs;

use crate::comparing::{ABOVE, BESIDE, QUARTERS, SECOND, SECOND_ABOVE, TWO, WHOLE};
use crate::program::{drawing, fresh_path, run, run_with, sample, Ran, P1};

/// Compares two pictures with these units and draws them.
fn draw(name: &str, first: &str, second: &str) -> (Ran, String) {
    let [path, svg] = ["txt", "svg"].map(|end| fresh_path(&format!("{name}.{end}")));
    fs::write(&path, format!("{TWO}{first}")).expect("a file");
    let arguments = [OsStr::new("compare"), path.as_os_str(), OsStr::new("-")];
    let output = [OsStr::new("-o"), svg.as_os_str()];
    let ran = run_with(&[&arguments[..], &output].concat(), format!("{TWO}{second}").as_bytes());
    (ran, fs::read_to_string(svg).expect("a drawing"))
}

#[test]
fn a_drawing_of_two_units() {
    let second = [BESIDE, SECOND_ABOVE].concat();
    let (ran, svg) = draw("two-units", &[ABOVE, SECOND].concat(), &second);
    assert_eq!(ran, Ran::accepted("unit 0: neither finer\nunit 1: second finer\n"));
    assert_eq!(svg, fs::read_to_string(drawing("compare.svg")).expect("a stored drawing"));
}

#[test]
fn pieces_of_an_edge_that_one_table_has() {
    // Quarters, and a half above two quarters: of the line down the middle the upper part is the first's.
    let second = "0 0 0 32 16 0 1\n0 0 16 16 16 0 2\n0 16 16 16 16 0 2\n";
    let (ran, svg) = draw("pieces", QUARTERS, second);
    assert_eq!(ran, Ran::accepted("unit 0: first finer\n"));
    let both = "M0 0H32M0 16H32M0 32H32M0 0V32M16 16V32M32 0V32";
    assert!(svg.contains(&format!("<path class=\"both\" d=\"{both}\"/>")), "{svg}");
    assert!(svg.contains("<path class=\"first\" d=\"M16 0V16\"/>"), "{svg}");
    // Its stroke in the legend.
    assert_eq!(svg.matches("class=\"second\"").count(), 1, "{svg}");
}

/// Units of one file only are not drawn.
#[test]
fn drawn_units_are_those_of_both_files() {
    let (ran, svg) = draw("both-files", WHOLE, &[WHOLE, SECOND].concat());
    assert_eq!(ran.status, 1);
    assert_eq!(svg.matches("<title>").count(), 1, "{svg}");
    assert!(svg.contains("<title>unit 0: equal blocks</title>"), "{svg}");
}

#[test]
fn a_drawing_on_standard_output_follows_the_answers() {
    let p1 = sample("p1.txt");
    let p1 = p1.to_str().expect("a name");
    let ran = run_with(&["compare", p1, "-", "-o", "-"], P1.as_bytes());
    assert_eq!((ran.status, ran.err.as_str()), (0, ""));
    assert!(ran.out.starts_with("unit 0: equal blocks\n<svg "), "{}", ran.out);
    assert!(ran.out.ends_with("</svg>\n"), "{}", ran.out);
}

#[test]
fn no_file_is_made_where_nothing_is_compared() {
    let path = fresh_path("no-comparison.svg");
    let name = path.to_str().expect("a name");
    let p1 = sample("p1.txt");
    let p1 = p1.to_str().expect("a name");
    let other = TWO.as_bytes();
    assert_eq!(run_with(&["compare", p1, "-", "-o", name], other).status, 1);
    assert_eq!(run(&["compare", p1, "missing.txt", "-o", name]).status, 2);
    assert!(!path.exists());
    let ran = run_with(&["compare", p1, "-", "-o", "missing/out.svg"], P1.as_bytes());
    assert!(ran.err.starts_with("colwythar: missing/out.svg: "), "{}", ran.err);
    assert_eq!((ran.status, ran.out.as_str()), (2, "unit 0: equal blocks\n"));
}
