//! Pictures in H.265; what is expected was written down by hand.

use std::fs;

use crate::program::{run, run_with, sample, Ran};

/// One unit of 32 by 32 in quarters, and one that is a block.
const TWO: &str = "h265 32 16 64 32\nunit 0: 1\nunit 1: 0\n";

#[test]
fn flags_of_a_table_are_those_of_the_file() {
    let flags = run(&["flags".as_ref(), sample("h265.table").as_os_str()]);
    let text = fs::read_to_string(sample("h265.txt")).expect("a sample");
    let lines: Vec<_> = text.lines().filter(|line| !line.starts_with('#')).collect();
    assert_eq!(flags, Ran::accepted(&(lines.join("\n") + "\n")));
}

#[test]
fn blocks_and_grids_are_drawn() {
    let ran = run_with(&["draw", "-"], TWO.as_bytes());
    assert_eq!((ran.status, ran.err.as_str()), (0, ""));
    assert_eq!(ran.out.matches("class=\"block\"").count(), 5);
    assert!(ran.out.contains("<title>unit 0: 16 by 16 at 16, 0; QT depth 1, MTT depth 0</title>"));
    let grid = "M0 0H64V32H0ZM32 0V32";
    for class in ["unit", "pipeline"] {
        assert!(ran.out.contains(&format!("class=\"{class}\" d=\"{grid}\"")), "{class}");
    }
}

/// No page is printed, and other files keep theirs.
#[test]
fn there_is_no_page() {
    let err = "colwythar: standard input: line 1: there is no page of a picture in H.265\n";
    assert_eq!(run_with(&["page", "-"], TWO.as_bytes()), Ran::failed(1, err));
    assert_eq!(run_with(&["page", "-"], b"h265 1 2 3 4\n"), Ran::failed(1, err));
    let p2 = sample("p2.txt");
    let out = fs::read_to_string(sample("p2.page")).expect("a stored page");
    let ran = run_with(&["page", "-", p2.to_str().expect("a name")], TWO.as_bytes());
    assert_eq!(ran, Ran { status: 1, out, err: err.to_string() });
}

#[test]
fn tables_are_not_compared() {
    let complaint = |line| {
        let reason = "tables of a picture in H.265 are not compared";
        format!("colwythar: standard input: line {line}: {reason}\n")
    };
    let p2 = sample("p2.txt");
    let p2 = p2.to_str().expect("a name");
    let first = run_with(&["compare", "-", p2], TWO.as_bytes());
    assert_eq!(first, Ran::failed(1, &complaint(1)));
    let second = run_with(&["compare", p2, "-"], b"# a comment\nh265 1 2 3 4\n");
    assert_eq!(second, Ran::failed(1, &complaint(2)));
}

#[test]
fn both_codings_among_several_files() {
    let (p1, h265) = (sample("p1.txt"), sample("h265.txt"));
    let (p1, h265) = (p1.to_str().expect("a name"), h265.to_str().expect("a name"));
    let stored = |name| fs::read_to_string(sample(name)).expect("stored output");
    let out = format!("# {p1}\n{}# {h265}\n{}", stored("p1.table"), stored("h265.table"));
    assert_eq!(run(&["table", p1, h265]), Ran::accepted(&out));
}
