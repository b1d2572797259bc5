use super::of_2013::{change, check, length, row, write_row};
use super::{no, yes, T1, T2, T3};
use crate::{Answer, NONE};
use dice::Dice;

/// The new file, its length asked first, then with exact, ample and too little room; or the refusal.
pub fn changed(a: u32, d: u32, rows: u32, kind: u32, data: &[u8], new_kind: u32) -> Result<Vec<u8>, Answer> {
    let asked = length(a, d, rows, kind, data, new_kind);
    if asked.number != 0 {
        let mut out = [3; 50];
        assert_eq!(change(a, d, rows, kind, data, new_kind, &mut out), asked);
        assert_eq!(change(a, d, rows, kind, data, new_kind, &mut []), asked);
        assert_eq!(out, [3; 50]);
        return Err(asked);
    }
    assert_eq!(asked, yes(asked.length));
    let needed = asked.length as usize;
    let mut exact = vec![0xEE; needed];
    assert_eq!(change(a, d, rows, kind, data, new_kind, &mut exact), asked);
    let mut ample = vec![0xEE; needed + 9];
    assert_eq!(change(a, d, rows, kind, data, new_kind, &mut ample), asked);
    assert_eq!(ample[..needed], exact);
    assert_eq!(ample[needed..], [0xEE; 9]);
    let mut short = vec![0xEE; needed - 1];
    assert_eq!(change(a, d, rows, kind, data, new_kind, &mut short), no(17, 0, 0));
    assert_eq!(short, vec![0xEE; needed - 1]);
    assert_eq!(change(a, d, rows, kind, data, new_kind, &mut []), no(17, 0, 0));
    Ok(exact)
}

/// T1, T2, T3: each kind to each kind, the same kind too.
#[test]
fn t1_t2_t3_change_into_each_other() {
    let files = [T1, T2, T3];
    for (kind, data) in (0..).zip(files) {
        for (new_kind, want) in (0..).zip(files) {
            assert_eq!(changed(1, 1, 2, kind, data, new_kind), Ok(want.to_vec()), "{kind} to {new_kind}");
        }
    }
}

/// T12: sample 32,768 to binary is 16; 32,767 is not.
#[test]
fn t12_what_fits_binary() {
    let fits = b"1,0,32767,-32767\r\n\x1A\r\n";
    assert_eq!(changed(2, 0, 1, 0, fits, 1), Ok(vec![1, 0, 0, 0, 0, 0, 0, 0, 0xFF, 0x7F, 1, 0x80]));
    assert_eq!(changed(2, 0, 1, 0, b"1,0,32768,0\r\n", 1), Err(no(16, 1, 3)));
    assert_eq!(changed(2, 0, 1, 0, b"1,0,0,-32768\r\n", 1), Err(no(16, 1, 4)));
    assert_eq!(changed(2, 0, 1, 0, b"1,0,32768,0\r\n", 0), Ok(b"1,0,32768,0\r\n\x1A\r\n".to_vec()));
    let wide = changed(2, 0, 1, 0, b"1,0,32768,-2147483647\r\n", 2).unwrap();
    assert_eq!(wide, [1, 0, 0, 0, 0, 0, 0, 0, 0, 0x80, 0, 0, 1, 0, 0, 0x80]);
    assert_eq!(changed(2, 0, 1, 2, &wide, 1), Err(no(16, 1, 3)));
    assert_eq!(changed(2, 0, 1, 2, &wide, 0), Ok(b"1,0,32768,-2147483647\r\n\x1A\r\n".to_vec()));
}

/// 16, first row and field that fails.
#[test]
fn the_first_row_and_field_that_fails() {
    let data = b"1,0,5,6\r\n2,0,5,99999\r\n3,0,99999,6\r\n";
    assert_eq!(changed(2, 0, 3, 0, data, 1), Err(no(16, 2, 4)));
    let data = b"1,0,5,6\r\n2,0,-99999,99999\r\n3,0,99999,6\r\n";
    assert_eq!(changed(2, 0, 3, 0, data, 1), Err(no(16, 2, 3)));
    let data = b"1,0,,6\r\n2,0,,99999\r\n3,0,99999,\r\n";
    assert_eq!(changed(2, 0, 3, 0, data, 1), Err(no(16, 2, 4)));
}

/// Last of all 16: the file comes first.
#[test]
fn the_file_is_refused_before_16() {
    assert_eq!(changed(1, 1, 2, 0, b"1,0,99999,0\r\n2,0,0,2\r\n", 1), Err(no(14, 2, 4)));
    assert_eq!(changed(1, 1, 2, 0, b"1,0,99999,0\r\n3,0,0,0\r\n", 1), Err(no(12, 2, 1)));
    assert_eq!(changed(1, 1, 2, 0, b"1,0,99999,0\r\n", 1), Err(no(11, 2, 0)));
    assert_eq!(changed(1, 1, 1, 0, b"1,0,99999,0\r\n\r\n", 1), Err(no(11, 2, 0)));
    assert_eq!(changed(1, 1, 1, 0, b"1,0,2147483648,0\r\n", 1), Err(no(14, 1, 3)));
    let mut wide = T3.to_vec();
    wide[10] = 0;
    assert_eq!(changed(1, 1, 2, 2, &wide, 1), Err(no(16, 1, 3)));
    wide[27] = 0x80;
    assert_eq!(changed(1, 1, 2, 2, &wide, 1), Err(no(13, 2, 0)));
    wide.pop();
    assert_eq!(changed(1, 1, 2, 2, &wide, 1), Err(no(11, 0, 0)));
}

/// 10: no such kind, the new kind of a change too.
#[test]
fn layout_and_both_kinds_are_first() {
    for (a, d, rows, kind, new_kind) in [
        (0, 0, 2, 0, 0),
        (97, 1, 2, 0, 0),
        (1, 257, 2, 0, 0),
        (1, 1, 0, 0, 0),
        (1, 1, 1_000_001, 0, 0),
        (1, 1, 2, 3, 0),
        (1, 1, 2, 0, 3),
        (1, 1, 2, u32::MAX, u32::MAX),
        (1, 1, 2, 1, 9),
    ] {
        assert_eq!(changed(a, d, rows, kind, b"junk", new_kind), Err(no(10, 0, 0)));
    }
    assert_eq!(changed(1, 1, 2, 1, b"junk", 0), Err(no(11, 0, 0)));
}

/// The plain written form ends 1A 0D 0A, whatever the ending read.
#[test]
fn text_takes_its_plain_form() {
    let data = b" 01, 0007,-0,+5, 007,1\r\n";
    assert_eq!(changed(3, 1, 1, 0, data, 0), Ok(b"1,7,0,5,7,1\r\n\x1A\r\n".to_vec()));
    for ending in [&b""[..], b"\x1A", b"\x1A\r\n"] {
        let data = [&T1[..24], ending].concat();
        assert_eq!(changed(1, 1, 2, 0, &data, 0), Ok(T1.to_vec()));
        assert_eq!(changed(1, 1, 2, 0, &data, 1), Ok(T2.to_vec()));
    }
}

/// Every row of the new file is the row of the old one.
#[test]
fn every_row_is_kept() {
    let mut dice = Dice::new(11);
    for round in 0..150 {
        let (kind, new_kind) = (round % 3, round / 3 % 3);
        let (a, d) = (1 + dice.below(96) as u32, dice.below(257) as u32);
        let rows = 1 + dice.below(5) as u32;
        let mut data = Vec::new();
        for n in 1..=rows {
            let mut places = vec![dice.below(1 << 31) as i64];
            places.extend((0..a).map(|_| match dice.below(1 << 16) as i64 - (1 << 15) {
                -32_768 => NONE,
                sample if sample % 5 == 0 => NONE,
                sample => sample,
            }));
            places.extend((0..d).map(|_| dice.below(2) as i64));
            let mut out = [0; 2000];
            let answer = write_row(a, d, rows, kind, n, &places, &mut out);
            data.extend_from_slice(&out[..answer.length as usize]);
        }
        let new = changed(a, d, rows, kind, &data, new_kind).unwrap();
        assert_eq!(check(a, d, rows, new_kind, &new), yes(0));
        for n in 1..=rows {
            let (mut old_row, mut new_row) = ([0; 353], [0; 353]);
            assert_eq!(row(a, d, rows, kind, &data, n, &mut old_row), yes(0));
            assert_eq!(row(a, d, rows, new_kind, &new, n, &mut new_row), yes(0));
            assert_eq!(old_row, new_row);
        }
        let back = changed(a, d, rows, new_kind, &new, kind).unwrap();
        let mark: &[u8] = if kind == 0 { b"\x1A\r\n" } else { b"" };
        assert_eq!(back, [&data[..], mark].concat());
    }
}

/// Rows: most 1,000,000.
#[test]
fn a_million_rows() {
    let mut data = Vec::new();
    for n in 1..=1_000_000u32 {
        data.extend_from_slice(format!("{n},{},{},{}\r\n", n * 4, n as i32 % 1000 - 500, n % 2).as_bytes());
    }
    let short = length(1, 1, 1_000_000, 0, &data, 1);
    assert_eq!(short, yes(12_000_000));
    let mut out = vec![0; 12_000_000];
    assert_eq!(change(1, 1, 1_000_000, 0, &data, 1, &mut out), short);
    let mut places = [0; 3];
    assert_eq!(row(1, 1, 1_000_000, 1, &out, 1_000_000, &mut places), yes(0));
    assert_eq!(places, [4_000_000, -500, 0]);
    data.extend_from_slice(b"1000001,0,0,0\r\n");
    assert_eq!(check(1, 1, 1_000_000, 0, &data), no(11, 1_000_001, 0));
}
