//! Pictures as drawings.

use std::fs;

use crate::program::{drawing, run, run_with, sample, Ran, P1};

/// The drawing of a text that is accepted.
fn draw(text: &str) -> String {
    let Ran { status, out, err } = run_with(&["draw", "-"], text.as_bytes());
    assert_eq!((status, err.as_str()), (0, ""));
    out
}

#[test]
fn a_drawing_of_one_block() {
    let svg = fs::read_to_string(drawing("p1.svg")).expect("a stored drawing");
    assert_eq!(draw(P1), svg);
    assert_eq!(draw("picture 64 4 8 3 32 32 64 64\n0 0 0 64 64 0 0\n"), svg);
}

#[test]
fn every_block_and_both_grids_are_drawn() {
    let svg = draw("picture 128 4 8 3 128 64 256 128\n0 0 0 64 128 0 1\n0 64 0 64 128 0 1\n");
    assert_eq!(svg.matches("class=\"block\"").count(), 2);
    assert!(svg.contains("class=\"unit\" d=\"M0 0H256V128H0ZM128 0V128\""));
    assert!(svg.contains("M64 0V128M128 0V128M192 0V128M0 64H256"));
    assert!(svg.contains("<title>unit 0: 64 by 128 at 64, 0; QT depth 0, MTT depth 1</title>"));
}

/// pipeline units have the CTU side where it is below 64.
#[test]
fn pipeline_units_of_a_small_unit() {
    let svg = draw("picture 32 4 8 3 32 32 64 40\nunit 0: 0\n");
    let grid = "M0 0H64V40H0ZM32 0V40M0 32H64";
    assert!(svg.contains(&format!("class=\"pipeline\" d=\"{grid}\"")));
    assert!(svg.contains(&format!("class=\"unit\" d=\"{grid}\"")));
}

#[test]
fn deeper_blocks_are_darker() {
    let svg = draw("picture 64 4 8 3 32 32 64 64\nunit 0: 1 1 0 1 0 0 0 0 0 0 0\n");
    assert_eq!(svg.matches("hsl(207 46% 90%)").count(), 3);
    assert_eq!(svg.matches("hsl(207 46% 85%)").count(), 3);
}

#[test]
fn a_drawing_of_a_table_is_that_of_the_flags() {
    for name in ["camera", "edge", "edge-128", "h265", "worst"] {
        let (flags, table) = (sample(&format!("{name}.txt")), sample(&format!("{name}.table")));
        let drawn = run(&["draw".as_ref(), flags.as_os_str()]);
        assert_eq!(drawn, run(&["draw".as_ref(), table.as_os_str()]));
        let rows = fs::read_to_string(table).expect("a table");
        let rows = rows.lines().filter(|line| line.starts_with(' ')).count();
        assert_eq!(drawn.out.matches("class=\"block\"").count(), rows);
    }
}

#[test]
fn refused_units_are_left_out_and_said() {
    let text = "picture 64 4 8 3 32 32 128 64\nunit 0: 2\nunit 0: 0\nunit 1: 0 1\n";
    let ran = run_with(&["draw", "-"], text.as_bytes());
    let said = "colwythar: standard input: line 2: unit 0: refusal 12: \
                flag 0, counted from 0, is neither 0 nor 1
colwythar: standard input: line 4: unit 1: refusal 13: \
                too many flags, the first that is too many is flag 1, counted from 0\n";
    assert_eq!((ran.status, ran.err.as_str()), (1, said));
    assert_eq!(ran.out.matches("class=\"block\"").count(), 1);
}

#[test]
fn broken_tables_are_left_out_and_said() {
    let text = "picture 64 4 8 3 32 32 128 64\n0 0 0 32 32 1 0\n\n0 32 0 32 32 1 0\n\
                1 64 0 64 64 0 0\n# again\n1 64 0 64 64 0 0\n0 0 0 64 64 0 0\n";
    let ran = run_with(&["draw", "-"], text.as_bytes());
    let said = "colwythar: standard input: lines 2 to 4: unit 0: refusal 27: \
                the table ends too early, more rows than 2 are needed (the last is line 4)
colwythar: standard input: lines 5 to 7: unit 1: refusal 28: \
                too many rows, the first that is too many is row 1, counted from 0 (it is line 7)\n";
    assert_eq!((ran.status, ran.err.as_str()), (1, said));
    assert_eq!(ran.out.matches("class=\"block\"").count(), 1);
}

#[test]
fn several_pictures_stand_one_below_another() {
    let (p2, edge) = (sample("p2.txt"), sample("edge-128.txt"));
    let ran = run(&["draw".as_ref(), p2.as_os_str(), edge.as_os_str()]);
    assert_eq!(ran.status, 0);
    // 200 is the wider, and the heights 64 and 136 have a gap of 8; at the edges there is 1 more.
    assert!(ran.out.contains("width=\"606\" height=\"630\" viewBox=\"-1 -1 202 210\""));
    assert!(ran
        .out
        .contains("<g transform=\"translate(0 0)\">\n<rect class=\"picture\" width=\"64\""));
    assert!(ran
        .out
        .contains("<g transform=\"translate(0 72)\">\n<rect class=\"picture\" width=\"200\""));
    assert_eq!((ran.out.matches("<g ").count(), ran.out.matches("</g>").count()), (2, 2));
    assert_eq!(ran.out.matches("<svg").count(), 1);
}

#[test]
fn a_file_that_cannot_be_read_is_left_out() {
    let p2 = sample("p2.txt");
    let alone = run(&["draw".as_ref(), p2.as_os_str()]).out;
    let ran = run(&["draw".as_ref(), "missing.txt".as_ref(), p2.as_os_str()]);
    let err = "colwythar: missing.txt: there is no such file\n".to_string();
    assert_eq!(ran, Ran { status: 2, out: alone, err });
}

#[test]
fn a_picture_without_units_is_its_grids() {
    let svg = draw("picture 64 4 8 3 32 32 128 64\n");
    assert!(svg.contains("class=\"unit\" d=\"M0 0H128V64H0ZM64 0V64\""));
    assert!(!svg.contains("class=\"block\""));
}

#[test]
fn text_that_cannot_be_drawn() {
    let said = |text: &str, message: &str| {
        let line = format!("colwythar: standard input: {message}\n");
        assert_eq!(run_with(&["draw", "-"], text.as_bytes()), Ran::failed(1, &line));
    };
    said("", "nothing to read: a picture line is expected");
    said("0 0 0 64 64 0 0\n", "line 1: a picture line is expected before this one");
    let few = "too few numbers; a picture has eight: CTU MinCb MinQt M MaxBt MaxTt width height";
    said("picture 64 4 8\n", &format!("line 1: {few}"));
}
