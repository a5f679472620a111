//! Arguments: help, version, and what is wrong usage.

use crate::program::{run, run_with, Ran, P1, P1_TABLE};

const USAGE: &str = "usage: colwythar table FILE...
       colwythar flags FILE...
       colwythar page FILE...
       colwythar draw FILE... [-o OUT.svg]
       colwythar compare FILE FILE [-o OUT.svg]
see colwythar --help
";

#[test]
fn without_a_command_or_a_file() {
    assert_eq!(run::<&str>(&[]), Ran::failed(2, USAGE));
    for command in ["table", "flags", "page"] {
        let usage = format!("usage: colwythar {command} FILE...\nsee colwythar --help\n");
        assert_eq!(run(&[command]), Ran::failed(2, &usage));
        assert_eq!(run(&[command, "--"]), Ran::failed(2, &usage));
    }
    let usage = "usage: colwythar draw FILE... [-o OUT.svg]\nsee colwythar --help\n";
    assert_eq!(run(&["draw", "-o", "out.svg"]), Ran::failed(2, usage));
}

#[test]
fn compare_takes_two_files() {
    let usage = "usage: colwythar compare FILE FILE [-o OUT.svg]\nsee colwythar --help\n";
    for files in [&["-o", "out.svg"][..], &["-"], &["-", "-", "-"], &["--", "a", "b", "c"]] {
        assert_eq!(run(&[&["compare"], files].concat()), Ran::failed(2, usage), "{files:?}");
    }
}

#[test]
fn unknown_words() {
    let wrong = |arguments: &[&str], message: &str| {
        let line = format!("colwythar: {message}; see colwythar --help\n");
        assert_eq!(run(arguments), Ran::failed(2, &line));
    };
    wrong(&["tables", "x"], "there is no command \"tables\"");
    wrong(&["-"], "there is no command \"-\"");
    wrong(&["a\nb"], "there is no command \"a\\nb\"");
    wrong(&["--tables"], "there is no option \"--tables\" here");
    wrong(&["table", "-x", "-"], "there is no option \"-x\" here");
    wrong(&["table", "-", "-o", "x"], "there is no option \"-o\" here");
    wrong(&["draw", "-", "-o"], "-o is to name OUT.svg");
    wrong(&["compare", "-", "-", "-o"], "-o is to name OUT.svg");
    wrong(&["draw", "-o", "a", "-o", "b", "-"], "-o is given twice");
}

#[test]
fn help_and_version() {
    for arguments in [&["--help"][..], &["-h"], &["draw", "--help"], &["draw", "-h", "-x"]] {
        let ran = run(arguments);
        assert_eq!((ran.status, ran.err.as_str()), (0, ""));
        let draw = ran.out.lines().find(|line| line.starts_with("  colwythar draw FILE... [-o "));
        assert!(draw.is_some_and(|line| line.contains("]   ") && line.contains("   draw the ")));
        assert!(ran.out.contains("  unit 0: 1 0 0 0 0\n"));
        assert_eq!(ran.out.contains("colwythar table FILE..."), arguments.len() == 1);
        assert_eq!(ran.out.contains("colwythar compare FILE FILE [-o"), arguments.len() == 1);
    }
    for arguments in [&["--version"][..], &["-V"], &["table", "-V"]] {
        assert_eq!(run(arguments), Ran::accepted("colwythar 0.1.0\n"));
    }
}

#[test]
fn the_example_of_the_help_text_is_accepted() {
    let help = run(&["--help"]).out;
    let example = help.find("  picture 64").expect("an example");
    let lines: Vec<_> = help[example..].lines().take(2).collect();
    let ran = run_with(&["table", "-"], lines.join("\n").as_bytes());
    assert!(ran.out.ends_with("# 1 unit, 4 rows; the picture is complete\n"), "{}", ran.out);
}

#[test]
fn standard_input_and_the_end_of_options() {
    assert_eq!(run_with(&["table", "-"], P1.as_bytes()), Ran::accepted(P1_TABLE));
    assert_eq!(run_with(&["table", "--", "-"], P1.as_bytes()), Ran::accepted(P1_TABLE));
    let why = "colwythar: --help: there is no such file\n";
    assert_eq!(run(&["table", "--", "--help"]), Ran::failed(2, why));
}
