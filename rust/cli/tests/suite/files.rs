//! Files that can and that cannot be read.

use std::fs;

use crate::program::{data, fresh_path, run, run_with, sample, Ran, P1, P1_TABLE};

#[test]
fn no_file_and_a_folder() {
    let folder = data("");
    let folder = folder.to_str().expect("a name");
    for command in ["table", "flags", "page", "draw"] {
        let missing = "colwythar: missing.txt: there is no such file\n";
        assert_eq!(run(&[command, "missing.txt"]), Ran::failed(2, missing));
        let why = format!("colwythar: {folder}: it is a directory\n");
        assert_eq!(run(&[command, folder]), Ran::failed(2, &why));
    }
}

#[test]
fn a_name_with_a_line_feed_stays_on_one_line() {
    let why = "colwythar: a\\nb: there is no such file\n";
    assert_eq!(run(&["table", "a\nb"]), Ran::failed(2, why));
}

#[test]
fn several_files() {
    let (p1, p2) = (sample("p1.txt"), sample("mistakes.txt"));
    let (p1, p2) = (p1.to_str().expect("a name"), p2.to_str().expect("a name"));
    let stored = |name| fs::read_to_string(sample(name)).expect("stored output");
    let out = format!("# {p1}\n{}# {p2}\n{}", stored("p1.table"), stored("mistakes.table"));
    assert_eq!(run(&["table", p1, p2]), Ran { status: 1, out: out.clone(), err: String::new() });
    let err = "colwythar: missing.txt: there is no such file\n".to_string();
    assert_eq!(run(&["table", p1, "missing.txt", p2]), Ran { status: 2, out, err });
}

#[test]
fn standard_input_among_several() {
    let p1 = sample("p1.txt");
    let p1 = p1.to_str().expect("a name");
    let out = format!("# standard input\n{P1_TABLE}# {p1}\n{P1_TABLE}");
    assert_eq!(run_with(&["table", "-", p1], P1.as_bytes()), Ran::accepted(&out));
}

#[test]
fn nothing_in_a_file() {
    let path = fresh_path("nothing.txt");
    fs::write(&path, "").expect("a file");
    let out = "# nothing to read: a picture line is expected\n".to_string();
    let ran = run(&["table".as_ref(), path.as_os_str()]);
    assert_eq!(ran, Ran { status: 1, out, err: String::new() });
}

#[test]
fn a_picture_without_units_is_accepted() {
    let picture = "picture 64 4 8 3 32 32 64 64\n";
    let table = format!("{picture}# 0 units, 0 rows\n");
    assert_eq!(run_with(&["table", "-"], picture.as_bytes()), Ran::accepted(&table));
    assert_eq!(run_with(&["flags", "-"], picture.as_bytes()), Ran::accepted(picture));
}

#[test]
fn line_ends() {
    let table = Ran::accepted(P1_TABLE);
    for text in [P1.replace('\n', "\r\n"), P1.trim_end().to_string(), format!("\r\n\n{P1}\n\r\n")] {
        assert_eq!(run_with(&["table", "-"], text.as_bytes()), table, "{text:?}");
    }
}

#[test]
fn a_comment_may_hold_any_byte() {
    let text = [b"# \xff\0\r\x1b\xc3 \n \t#\n".as_slice(), P1.as_bytes()].concat();
    assert_eq!(run_with(&["table", "-"], &text), Ran::accepted(P1_TABLE));
}
