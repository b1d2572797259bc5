//! Missing samples: the lowest pattern of the binary kinds, an empty field of a text.

use super::change::changed;
use super::data::shown;
use super::of_2013::{check, row, write_row};
use super::{join, no, with, yes, S};
use crate::{list, Answer, NONE};

/// A binary row of two samples and a status: the pattern 8000 hex, the highest sample, on.
const TWO: [u8; 14] = [1, 0, 0, 0, 0, 0, 0, 0, 0x00, 0x80, 0xFF, 0x7F, 1, 0];

/// The refusal of a text of one row, A = 1, D = 1, by its check and by its row alike.
fn refused(line: &str) -> Answer {
    let file = format!("{line}\r\n");
    let answer = check(1, 1, 1, 0, file.as_bytes());
    assert_ne!(answer.number, 0, "{line}");
    assert_eq!(row(1, 1, 1, 0, file.as_bytes(), 1, &mut [0; 3]), answer, "{line}");
    answer
}

/// Row 2 of two, A = 1, D = 1, written from these places.
fn written(kind: u32, places: &[i64]) -> Result<Vec<u8>, Answer> {
    let mut out = [0xEE; 40];
    let answer = write_row(1, 1, 2, kind, 2, places, &mut out);
    if answer.number != 0 {
        assert_eq!(out, [0xEE; 40]);
        return Err(answer);
    }
    assert!(out[answer.length as usize..].iter().all(|&byte| byte == 0xEE));
    Ok(out[..answer.length as usize].to_vec())
}

/// A text of one row in its plain form, with its end mark.
fn plain(line: &str) -> Vec<u8> {
    format!("{line}\r\n\x1A\r\n").into_bytes()
}

/// Number 1, time 0, and the bytes that follow them in a binary row.
fn first_row(rest: &[u8]) -> Vec<u8> {
    [&[1, 0, 0, 0, 0, 0, 0, 0], rest].concat()
}

/// 1: an empty sample field is a missing sample, shown as none and listed as x.
#[test]
fn missing_1_an_empty_field() {
    assert_eq!(check(1, 1, 1, 0, b"1,0,,0\r\n"), yes(0));
    assert_eq!(shown(1, 1, 1, 0, b"1,0,,0\r\n", 1), [0, i64::MIN, 0]);
    assert_eq!(list(&with(&[(7, "1000,1")]), b"1,0,,0\r\n"), "A 1 D 1 rows 1 ASCII\n1 0 x 0\n");
    assert_eq!(list(&join(&S), b"1,0,,0\r\n2,1000,,1\r\n"), "A 1 D 1 rows 2 ASCII\n1 0 x 0\n2 1000 x 1\n");
}

/// 2: a field of spaces is bad form.
#[test]
fn missing_2_a_space() {
    for width in 1..=14 {
        assert_eq!(refused(&format!("1,0,{:width$},0", "")), no(14, 1, 3), "{width}");
    }
}

/// 3: the lowest number of 32 bits is no sample of a text.
#[test]
fn missing_3_the_lowest_number_in_text() {
    for sample in ["-2147483648", "-002147483648", " -2147483648"] {
        assert_eq!(refused(&format!("1,0,{sample},0")), no(14, 1, 3), "{sample}");
    }
}

/// 4: the lowest sample of a text fits binary32, and not binary.
#[test]
fn missing_4_the_lowest_sample_of_a_text() {
    let file = b"1,0,-2147483647,0\r\n";
    assert_eq!(shown(1, 1, 1, 0, file, 1), [0, -2_147_483_647, 0]);
    assert_eq!(changed(1, 1, 1, 0, file, 1), Err(no(16, 1, 3)));
    assert_eq!(changed(1, 1, 1, 0, file, 2), Ok(first_row(&[0x01, 0x00, 0x00, 0x80, 0, 0])));
}

/// 5: rows whose samples are all missing, with and without a status.
#[test]
fn missing_5_every_sample() {
    assert_eq!(shown(1, 0, 1, 0, b"1,7,\r\n", 1), [7, NONE]);
    assert_eq!(shown(2, 0, 1, 0, b"1,7,,\r\n", 1), [7, NONE, NONE]);
    assert_eq!(shown(2, 1, 1, 0, b"1,7,,,1\r\n", 1), [7, NONE, NONE, 1]);
    assert_eq!(check(1, 0, 1, 0, b"1,7\r\n"), no(14, 1, 0));
    assert_eq!(check(1, 0, 1, 0, b"1,7,,\r\n"), no(14, 1, 0));
}

/// 6: a number, a timestamp and a status are never empty.
#[test]
fn missing_6_only_samples_may_be_empty() {
    assert_eq!(refused("1,,,1"), no(14, 1, 2));
    assert_eq!(refused("1,0,,"), no(14, 1, 4));
    assert_eq!(refused(",0,,0"), no(14, 1, 1));
    assert_eq!(check(0, 1, 1, 0, b"1,0,\r\n"), no(14, 1, 3));
}

/// 7: 8000 hex is a missing sample, and stays one in every kind.
#[test]
fn missing_7_the_lowest_pattern_of_binary() {
    assert_eq!(shown(2, 1, 1, 1, &TWO, 1), [0, NONE, 32_767, 1]);
    assert_eq!(changed(2, 1, 1, 1, &TWO, 0), Ok(plain("1,0,,32767,1")));
    let wide = first_row(&[0x00, 0x00, 0x00, 0x80, 0xFF, 0x7F, 0x00, 0x00, 1, 0]);
    assert_eq!(changed(2, 1, 1, 1, &TWO, 2), Ok(wide.clone()));
    assert_eq!(changed(2, 1, 1, 1, &TWO, 1), Ok(TWO.to_vec()));
    for (kind, data) in [(0, plain("1,0,,32767,1")), (2, wide)] {
        assert_eq!(changed(2, 1, 1, kind, &data, 1), Ok(TWO.to_vec()));
    }
}

/// 8: one above the lowest pattern is the lowest sample.
#[test]
fn missing_8_one_above_the_lowest_pattern() {
    let mut data = TWO;
    data[8] = 0x01;
    assert_eq!(shown(2, 1, 1, 1, &data, 1), [0, -32_767, 32_767, 1]);
}

/// 9: 80000000 hex is a missing sample, and FFFF8000 hex is -32768, which does not fit binary.
#[test]
fn missing_9_the_lowest_pattern_of_binary32() {
    let data = first_row(&[0x00, 0x00, 0x00, 0x80, 0x00, 0x80, 0xFF, 0xFF, 1, 0]);
    assert_eq!(shown(2, 1, 1, 2, &data, 1), [0, NONE, -32_768, 1]);
    assert_eq!(changed(2, 1, 1, 2, &data, 1), Err(no(16, 1, 4)));
    assert_eq!(changed(2, 1, 1, 2, &data, 0), Ok(plain("1,0,,-32768,1")));
}

/// 10: -32768 in text is a number, which does not fit binary.
#[test]
fn missing_10_minus_32768_in_text() {
    let file = b"1,0,-32768,0\r\n";
    assert_eq!(changed(1, 1, 1, 0, file, 1), Err(no(16, 1, 3)));
    assert_eq!(changed(1, 1, 1, 0, file, 2), Ok(first_row(&[0x00, 0x80, 0xFF, 0xFF, 0, 0])));
    assert_eq!(changed(1, 1, 1, 0, file, 0), Ok(plain("1,0,-32768,0")));
}

/// 11: a missing sample is written in each kind.
#[test]
fn missing_11_written() {
    let places = [5, NONE, 1];
    assert_eq!(written(0, &places), Ok(b"2,5,,1\r\n".to_vec()));
    assert_eq!(written(1, &places), Ok(vec![2, 0, 0, 0, 5, 0, 0, 0, 0x00, 0x80, 1, 0]));
    assert_eq!(written(2, &places), Ok(vec![2, 0, 0, 0, 5, 0, 0, 0, 0x00, 0x00, 0x00, 0x80, 1, 0]));
}

/// 12: a number below the range is not taken for a missing sample.
#[test]
fn missing_12_numbers_below_the_range() {
    for kind in 0..3 {
        for sample in [-2_147_483_648, -2_147_483_649, i64::MIN + 1] {
            assert_eq!(written(kind, &[5, sample, 1]), Err(no(16, 2, 3)), "{kind} {sample}");
        }
    }
    assert_eq!(written(1, &[5, -32_768, 1]), Err(no(16, 2, 3)));
    assert_eq!(written(0, &[5, -32_768, 1]), Ok(b"2,5,-32768,1\r\n".to_vec()));
}

/// 13: a time and a status are never missing.
#[test]
fn missing_13_no_time_and_no_status() {
    for kind in 0..3 {
        assert_eq!(written(kind, &[NONE, NONE, 1]), Err(no(16, 2, 2)), "{kind}");
        assert_eq!(written(kind, &[5, NONE, NONE]), Err(no(16, 2, 4)), "{kind}");
    }
}

/// 14: an empty sample field is plain.
#[test]
fn missing_14_an_empty_field_is_plain() {
    let rows = b"1,0,,0\r\n2,1000,300,1\r\n";
    let file = [&rows[..], b"\x1A\r\n"].concat();
    assert_eq!(changed(1, 1, 2, 0, rows, 0), Ok(file.clone()));
    assert_eq!(changed(1, 1, 2, 0, &file, 0), Ok(file));
}

/// Timestamps and statuses have no lowest pattern: the same bytes beside a missing sample are numbers.
#[test]
fn patterns_beside_a_sample() {
    let narrow = [1, 0, 0, 0, 0, 0, 0, 0x80, 0x00, 0x80, 0x00, 0x80];
    let mut places = vec![2_147_483_648, NONE];
    places.extend([0; 15]);
    places.push(1);
    assert_eq!(shown(1, 16, 1, 1, &narrow, 1), places);
    let latest = [&narrow[..4], &[0xFF; 4], &narrow[8..]].concat();
    assert_eq!(shown(1, 16, 1, 1, &latest, 1)[..2], [4_294_967_295, NONE]);
}
