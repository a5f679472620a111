//! What a line says, and the first thing that is wrong with it.

use cli::text::{scan, Line, Malformed, Reason, Text};
use cli::Picture;
use colwythar::Row;

fn scanned(line: &str) -> Result<(Line, Vec<u8>), Malformed> {
    let mut flags = vec![7];
    let text = Text { number: 1, bytes: line.as_bytes(), cut: false };
    scan(text, &mut flags).map(|line| (line, flags))
}

#[test]
fn lines_that_are_taken() {
    let h266 = Picture::H266([64, 4, 8, 3, 32, 32, 4_294_967_295, 0].into());
    let h265 = Picture::H265([64, 8, 4_294_967_295, 0].into());
    let row = Row::from_bytes(&[255, 255, 1, 0, 15, 0, 255, 0]);
    let lines = [
        ("", Line::Blank, vec![]),
        (" \t ", Line::Blank, vec![]),
        ("\t# unit x:", Line::Blank, vec![]),
        ("picture 64 4 8 3 32 32 4294967295 0", Line::Picture(h266), vec![]),
        ("h265 64\t8 4294967295 0 ", Line::Picture(h265), vec![]),
        ("unit 0:", Line::Unit(0), vec![]),
        ("unit 4294967295 :001 0\t255", Line::Unit(4_294_967_295), vec![1, 0, 255]),
        ("7 65535 1 32768 1 255 0 ", Line::Row(7, row), vec![]),
    ];
    for (text, line, flags) in lines {
        assert_eq!(scanned(text), Ok((line, flags)), "{text}");
    }
}

fn assert_wrong(text: &str, reason: Reason) {
    assert_eq!(scanned(text), Err(Malformed { reason, row_of: None }), "{text}");
}

#[test]
fn the_first_thing_that_is_wrong() {
    let lines = [
        ("pictures 1", Reason::Word),
        ("Unit 0: 0", Reason::Word),
        ("-1", Reason::Word),
        (": 1", Reason::Colon),
        ("picture 1:", Reason::Colon),
        ("picture x :", Reason::PictureWord),
        ("picture 4294967296 x", Reason::PictureLarge),
        ("picture 1 2 3 4 5 6 7 8 9 #", Reason::PictureMany),
        ("picture", Reason::PictureFew),
        ("picture 1#", Reason::Comment),
        ("unit", Reason::Address),
        ("unit :", Reason::Address),
        ("unit x", Reason::Address),
        ("unit 4294967296 x", Reason::AddressLarge),
        ("unit 1 2", Reason::NoColon),
        ("unit 1 x", Reason::NoColon),
        ("unit 1", Reason::NoColon),
        ("unit 1: 0 :", Reason::Colon),
        ("unit 1: 0 256", Reason::Flag),
        ("unit 1: 0 -1", Reason::Flag),
        ("unit 1: 0 0#", Reason::Comment),
        ("unit 1: 0\r0", Reason::Return),
        ("\r", Reason::Return),
        ("unit 1: 0\u{7f}", Reason::Byte),
        ("\u{0}", Reason::Byte),
        ("4294967296 x", Reason::AddressLarge),
    ];
    lines.into_iter().for_each(|(text, reason)| assert_wrong(text, reason));
}

#[test]
fn the_first_thing_that_is_wrong_in_h265() {
    let lines = [
        ("H265 64 8 64 64", Reason::Word),
        ("h265: 64 8 64 64", Reason::Colon),
        ("h265 64 x :", Reason::H265Word),
        ("h265 4294967296 x", Reason::PictureLarge),
        ("h265 64 8 64 64 1 #", Reason::H265Many),
        ("h265 64 8 64", Reason::H265Few),
        ("h265", Reason::H265Few),
        ("h265 64#", Reason::Comment),
    ];
    lines.into_iter().for_each(|(text, reason)| assert_wrong(text, reason));
}

#[test]
fn rows_that_are_not_taken() {
    let lines = [
        ("5", Reason::RowFew),
        ("5 0 0 4 4 0", Reason::RowFew),
        ("5 0 0 4 4 0 0 0", Reason::RowMany),
        ("5 0 0 4 4 0 0 x", Reason::RowWord),
        ("5 x", Reason::RowWord),
        ("5:", Reason::Colon),
        ("5 65536", Reason::RowCorner),
        ("5 0 65536 x", Reason::RowCorner),
        ("5 0 0 0 4 0 0", Reason::RowSide),
        ("5 0 0 65536", Reason::RowSide),
        ("5 0 0 4 12", Reason::RowSide),
        ("5 0 0 4 4 256", Reason::RowDepth),
        ("5 0 0 4 4 0 4294967296", Reason::RowDepth),
        ("5 0 #", Reason::Comment),
    ];
    for (text, reason) in lines {
        assert_eq!(scanned(text), Err(Malformed { reason, row_of: Some(5) }), "{text}");
    }
}

#[test]
fn the_flags_before_the_wrong_one_are_there() {
    let mut flags = Vec::new();
    let text = Text { number: 1, bytes: b"unit 0: 1 0 x 1", cut: false };
    assert!(scan(text, &mut flags).is_err());
    assert_eq!(flags, [1, 0]);
}
