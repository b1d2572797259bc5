//! Recordings of the 1999 edition.

use super::config::{ask, shown};
use super::write_config::written;
use super::{join, no, with, yes, S};
use crate::{change, check, length, list, row, write_row, Answer, LayoutNumbers, NONE};

/// One analog channel, one status channel, one row of text.
const TEXT: LayoutNumbers = LayoutNumbers { a: 1, d: 1, rows: 1, kind: 0, edition: 1999 };

/// The same as binary.
const BINARY: LayoutNumbers = LayoutNumbers { kind: 1, ..TEXT };

/// The text of 2013.
const TEXT_2013: LayoutNumbers = LayoutNumbers { edition: 2013, ..TEXT };

/// Every way to write the number that means a missing sample.
const MARKS: [&str; 6] = ["99999", "+99999", "  99999", "0000000099999", "  +0000099999", "+000000099999"];

/// N: the recording's configuration with year 1999, without its last two lines, some lines replaced.
pub fn n_with(changes: &[(usize, &str)]) -> Vec<u8> {
    let mut lines = S[..11].to_vec();
    lines[0] = "Bench 2,R7,1999";
    for &(line, text) in changes {
        lines[line - 1] = text;
    }
    join(&lines)
}

/// N and what follows it.
fn n_and(tail: &[u8]) -> Vec<u8> {
    [&n_with(&[]), tail].concat()
}

/// N without its last CR LF.
fn n_open() -> Vec<u8> {
    let mut cfg = n_with(&[]);
    cfg.truncate(cfg.len() - 2);
    cfg
}

/// N without its last lines, so many of its lines left.
fn n_cut(lines: usize) -> Vec<u8> {
    n_with(&[]).split_inclusive(|&byte| byte == b'\n').take(lines).flatten().copied().collect()
}

/// What a configuration shows that shows as the recording does, but for its edition.
fn shown_as_n() -> [i64; 35] {
    let mut want = shown(&join(&S));
    want[29..34].fill(NONE);
    want[34] = 1999;
    want
}

/// The one row of a text with this sample.
fn line(sample: &str) -> Vec<u8> {
    format!("1,0,{sample},0\r\n").into_bytes()
}

/// The row as it stands in a plain file.
fn plain(sample: &str) -> Vec<u8> {
    [&line(sample)[..], b"\x1A\r\n"].concat()
}

/// The first row of a binary file with time 0, this sample, and its status off.
fn binary(sample: [u8; 2]) -> Vec<u8> {
    [&[1, 0, 0, 0, 0, 0, 0, 0][..], &sample, &[0, 0]].concat()
}

/// The check of a file, which its first row and its change to its own kind must agree with.
fn checked(layout: LayoutNumbers, data: &[u8]) -> Answer {
    let answer = check(layout, data);
    assert_eq!(row(layout, data, 1, &mut [0; 9]), answer);
    let asked = length(layout, data, layout.kind);
    assert_eq!(Answer { length: 0, ..asked }, answer);
    answer
}

/// The places of the first row.
fn first_row(layout: LayoutNumbers, data: &[u8]) -> Vec<i64> {
    let mut places = vec![-5; (1 + layout.a + layout.d) as usize];
    assert_eq!(row(layout, data, 1, &mut places), yes(0));
    places
}

/// The file in another kind, or the refusal, which the length gives too.
fn changed(layout: LayoutNumbers, data: &[u8], new_kind: u32) -> Result<Vec<u8>, Answer> {
    let asked = length(layout, data, new_kind);
    let mut out = vec![0xEE; asked.length as usize];
    assert_eq!(change(layout, data, new_kind, &mut out), asked);
    if asked.number == 0 {
        Ok(out)
    } else {
        Err(asked)
    }
}

/// Row 1 with this sample, as it is written.
fn row_written(layout: LayoutNumbers, sample: i64) -> Result<Vec<u8>, Answer> {
    let mut out = [0xEE; 40];
    let answer = write_row(layout, 1, &[5, sample, 1], &mut out);
    if answer.number != 0 {
        assert_eq!(out, [0xEE; 40]);
        return Err(answer);
    }
    Ok(out[..answer.length as usize].to_vec())
}

/// 1: a configuration of 1999 ends with the time multiplier; what follows it in 2013 is shown as absent.
#[test]
fn editions_1_n_is_shown() {
    assert_eq!(n_with(&[]).len(), 157);
    assert_eq!(shown(&n_with(&[])), shown_as_n());
    assert_eq!(shown(&n_open()), shown_as_n());
    assert_eq!(shown(&join(&S))[29..], [0, 0, 0, 0, 3, 2013]);
}

/// 2: the last line has CR LF or ends with the file.
#[test]
fn editions_2_n_without_its_last_lf() {
    let cfg = n_with(&[]);
    assert_eq!(ask(&cfg[..156]), no(3, 11, 0));
}

/// 3: the two last lines of 2013 are bytes after the last line.
#[test]
fn editions_3_thirteen_lines() {
    assert_eq!(ask(&with(&[(1, "Bench 2,R7,1999")])), no(9, 12, 0));
}

/// 4: a configuration of 2013 has them.
#[test]
fn editions_4_eleven_lines_of_2013() {
    assert_eq!(ask(&join(&S[..11])), no(2, 12, 0));
}

/// 5: another year of four digits is 8; not four digits is 5.
#[test]
fn editions_5_years() {
    for year in ["1991", "2012", "2014", "1998", "2000", "0000", "9999"] {
        let station = format!("Bench 2,R7,{year}");
        assert_eq!(ask(&with(&[(1, &station)])), no(8, 1, 3), "{year}");
        assert_eq!(ask(&n_with(&[(1, &station)])), no(8, 1, 3), "{year}");
    }
    assert_eq!(ask(&with(&[(1, "Bench 2,R7,199")])), no(5, 1, 3));
}

/// 6: the kinds of 1999 are ASCII and binary.
#[test]
fn editions_6_kinds() {
    for word in ["BINARY32", "binary32", "float32"] {
        assert_eq!(ask(&n_with(&[(10, word)])), no(6, 10, 1), "{word}");
    }
    assert_eq!(ask(&n_with(&[(10, "bin")])), no(5, 10, 1));
    assert_eq!(ask(&n_with(&[(10, "Binary")])), yes(0));
    assert_eq!(shown(&n_with(&[(10, "Binary")]))[28], 1);
}

/// 7: the last line's own fields are checked.
#[test]
fn editions_7_multiplier() {
    assert_eq!(ask(&n_with(&[(11, "0")])), no(6, 11, 1));
    assert_eq!(ask(&n_with(&[(11, "0\r\n0,0")])), no(6, 11, 1));
    assert_eq!(ask(&n_with(&[(11, "1,")])), no(4, 11, 0));
}

/// 8: 99999 is a missing sample, however it is written, and stays one in the edition's two kinds.
#[test]
fn editions_8_marks() {
    for mark in MARKS {
        assert_eq!(checked(TEXT, &line(mark)), yes(0), "{mark}");
        assert_eq!(first_row(TEXT, &line(mark)), [0, NONE, 0], "{mark}");
        assert_eq!(changed(TEXT, &line(mark), 0), Ok(plain("99999")), "{mark}");
        assert_eq!(changed(TEXT, &line(mark), 1), Ok(binary([0x00, 0x80])), "{mark}");
        assert_eq!(changed(TEXT, &line(mark), 2), Err(no(10, 0, 0)), "{mark}");
    }
}

/// 9: under 2013 it is a number.
#[test]
fn editions_9_marks_under_2013() {
    for mark in MARKS {
        assert_eq!(first_row(TEXT_2013, &line(mark)), [0, 99_999, 0], "{mark}");
        assert_eq!(changed(TEXT_2013, &line(mark), 1), Err(no(16, 1, 3)), "{mark}");
    }
}

/// 10: a sample of a text lies from -99999 to 99998, and a field is never empty.
#[test]
fn editions_10_range() {
    for (sample, number) in
        [("99998", 99_998), ("-99999", -99_999), ("+000000099998", 99_998), ("-000000099999", -99_999)]
    {
        assert_eq!(checked(TEXT, &line(sample)), yes(0), "{sample}");
        assert_eq!(first_row(TEXT, &line(sample)), [0, number, 0], "{sample}");
    }
    for sample in ["100000", "-100000", "", " ", "99999 ", "9999999999999", "-2147483647", "99999.0", "00000000099999"]
    {
        assert_eq!(checked(TEXT, &line(sample)), no(14, 1, 3), "{sample:?}");
    }
    assert_eq!(checked(LayoutNumbers { d: 0, ..TEXT }, b"1,7,\r\n"), no(14, 1, 3));
    assert_eq!(first_row(LayoutNumbers { a: 0, ..TEXT }, b"1,99999,1\r\n"), [99_999, 1]);
}

/// 11: samples of a text that do not fit the binary kind.
#[test]
fn editions_11_wide_samples() {
    for sample in ["32768", "-32768", "99998", "-99999"] {
        assert_eq!(changed(TEXT, &line(sample), 1), Err(no(16, 1, 3)), "{sample}");
        assert_eq!(changed(TEXT, &line(sample), 0), Ok(plain(sample)), "{sample}");
    }
    assert_eq!(changed(TEXT, &line("-32767"), 1), Ok(binary([0x01, 0x80])));
}

/// 12: binary is as in 2013.
#[test]
fn editions_12_binary() {
    assert_eq!(checked(BINARY, &binary([0x00, 0x80])), yes(0));
    assert_eq!(first_row(BINARY, &binary([0x00, 0x80])), [0, NONE, 0]);
    assert_eq!(changed(BINARY, &binary([0x00, 0x80]), 0), Ok(plain("99999")));
    assert_eq!(changed(BINARY, &binary([0x00, 0x80]), 1), Ok(binary([0x00, 0x80])));
    assert_eq!(first_row(BINARY, &binary([0x01, 0x80])), [0, -32_767, 0]);
    assert_eq!(changed(BINARY, &binary([0x01, 0x80]), 0), Ok(plain("-32767")));
}

/// 13: a missing sample is written as 99999; the number 99999 does not fit.
#[test]
fn editions_13_written() {
    assert_eq!(row_written(TEXT, NONE), Ok(b"1,5,99999,1\r\n".to_vec()));
    assert_eq!(row_written(TEXT, 99_998), Ok(b"1,5,99998,1\r\n".to_vec()));
    assert_eq!(row_written(TEXT, -99_999), Ok(b"1,5,-99999,1\r\n".to_vec()));
    for sample in [99_999, 100_000, -100_000, 2_147_483_647, -2_147_483_648, i64::MAX, NONE + 1] {
        assert_eq!(row_written(TEXT, sample), Err(no(16, 1, 3)), "{sample}");
    }
    assert_eq!(row_written(BINARY, NONE), Ok(vec![1, 0, 0, 0, 5, 0, 0, 0, 0x00, 0x80, 1, 0]));
    assert_eq!(row_written(BINARY, 32_768), Err(no(16, 1, 3)));
    assert_eq!(row_written(TEXT_2013, 99_999), Ok(b"1,5,99999,1\r\n".to_vec()));
    let mut short = [0xEE; 12];
    assert_eq!(write_row(TEXT, 1, &[5, NONE, 1], &mut short), no(17, 0, 0));
    assert_eq!(short, [0xEE; 12]);
}

/// 14: a kind that the edition lacks, and an edition that there is not, are refused before anything is read.
#[test]
fn editions_14_layouts() {
    for (kind, edition) in [(2, 1999), (0, 1991), (1, 0), (0, 1998), (2, 2014), (0, u32::MAX)] {
        let layout = LayoutNumbers { kind, edition, ..TEXT };
        assert_eq!(check(layout, b""), no(10, 0, 0));
        assert_eq!(row(layout, b"", 0, &mut []), no(10, 0, 0));
        assert_eq!(write_row(layout, 0, &[], &mut []), no(10, 0, 0));
        assert_eq!(changed(layout, b"", 0), Err(no(10, 0, 0)));
    }
    for new_kind in [2, 3, u32::MAX] {
        assert_eq!(changed(TEXT, b"junk", new_kind), Err(no(10, 0, 0)));
        assert_eq!(changed(BINARY, b"junk", new_kind), Err(no(10, 0, 0)));
    }
    assert_eq!(changed(TEXT, b"junk", 1), Err(no(11, 1, 0)));
}

/// 15: a configuration of 1999 is written for the edition's two kinds.
#[test]
fn editions_15_written_for_a_kind() {
    assert_eq!(written(&n_with(&[]), 1), Ok(n_with(&[(10, "binary")])));
    assert_eq!(written(&n_with(&[]), 2), Err(no(10, 0, 0)));
    let mut cut = n_cut(9);
    cut.extend_from_slice(b"ASC");
    assert_eq!(written(&cut, 2), Err(no(2, 10, 0)));
}

/// 16: where a configuration of 1999 ends, and what may not follow it.
#[test]
fn editions_16_endings() {
    assert_eq!(ask(&n_cut(10)), no(2, 11, 0));
    assert_eq!(ask(&n_and(b"\r\n")), no(9, 12, 0));
    assert_eq!(ask(&n_and(b"\x1A")), no(9, 12, 0));
    assert_eq!(ask(&n_and(b"0,0\r\n")), no(9, 12, 0));
    assert_eq!(ask(&[&n_open()[..], b"\x1A"].concat()), no(3, 11, 0));
    assert_eq!(ask(&[&n_open()[..], b"\n"].concat()), no(3, 11, 0));
}

/// 17: the time multiplier's line is written with CR LF and without leading spaces.
#[test]
fn editions_17_the_last_line_is_written() {
    let mut out = [0xEE; 157];
    assert_eq!(crate::write_config(&n_open(), 0, &mut out), yes(157));
    assert_eq!(out[..], n_with(&[]));
    let bare = n_with(&[(10, "binary")]);
    assert_eq!(written(&n_with(&[(11, "  1")]), 1), Ok(bare.clone()));
    assert_eq!(bare.len(), 158);
    assert_eq!(written(&n_with(&[]), 3), Err(no(10, 0, 0)));
}

/// 18: a listing says nothing of the edition, and its samples are those of the edition.
#[test]
fn editions_18_listed() {
    let one_row = (7, "1000,1");
    assert_eq!(list(&n_with(&[one_row]), &line("99999")), "A 1 D 1 rows 1 ASCII\n1 0 x 0\n");
    assert_eq!(list(&with(&[one_row]), &line("99999")), "A 1 D 1 rows 1 ASCII\n1 0 99999 0\n");
    assert_eq!(list(&n_with(&[one_row]), &line("")), "no dat 14 1 3\n");
    assert_eq!(list(&n_with(&[one_row, (10, "binary")]), &binary([0, 0x80])), "A 1 D 1 rows 1 binary\n1 0 x 0\n");
}

/// 19: a year has no leading space.
#[test]
fn editions_19_a_space_before_the_year() {
    for year in [" 1999", "1999 ", "01999", "19 9", "+199", "1999.0"] {
        assert_eq!(ask(&n_with(&[(1, &format!("Bench 2,R7,{year}"))])), no(5, 1, 3), "{year}");
    }
}
