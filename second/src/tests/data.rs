use super::of_2013::{check, row, write_row};
use super::{no, yes, T1, T2, T3};
use crate::{Answer, NONE};
use dice::Dice;

/// The places of row n.
pub fn shown(a: u32, d: u32, rows: u32, kind: u32, data: &[u8], n: u32) -> Vec<i64> {
    let mut places = vec![-5; 1 + (a + d) as usize + 3];
    assert_eq!(row(a, d, rows, kind, data, n, &mut places), yes(0));
    assert_eq!(places.split_off(1 + (a + d) as usize), [-5; 3]);
    places
}

/// The check of a text file with A = 1, D = 1.
fn text(rows: u32, data: &[u8]) -> Answer {
    check(1, 1, rows, 0, data)
}

/// T1, T2, T3: 27, 24 and 28 bytes that show the same rows.
#[test]
fn t1_t2_t3_are_one_recording() {
    assert_eq!(T1.len(), 27);
    assert_eq!(T2.len(), 24);
    assert_eq!(T3.len(), 28);
    for (kind, data) in [(0, T1), (1, T2), (2, T3)] {
        assert_eq!(check(1, 1, 2, kind, data), yes(0));
        assert_eq!(shown(1, 1, 2, kind, data, 1), [0, -3, 0]);
        assert_eq!(shown(1, 1, 2, kind, data, 2), [1000, 300, 1]);
    }
}

/// T4: time 334, six samples, and only status 6 on.
#[test]
fn t4_row_3() {
    let three =
        [0x03, 0, 0, 0, 0x4E, 0x01, 0, 0, 0x8A, 0xFC, 0xE3, 0x04, 0x57, 0, 0x2D, 0, 0x75, 0xFF, 0xA1, 0xFE, 0x20, 0];
    let mut data = Vec::new();
    for n in 1..=3u8 {
        data.push(n);
        data.extend_from_slice(&three[1..]);
    }
    assert_eq!(shown(6, 6, 3, 1, &data, 3), [334, -886, 1251, 87, 45, -139, -351, 0, 0, 0, 0, 0, 1]);
}

/// Clause 8.7's row agrees with its text form.
#[test]
fn row_5_of_clause_8_7() {
    let five =
        [0x05, 0, 0, 0, 0x9B, 0x02, 0, 0, 0x08, 0xFD, 0xFA, 0x04, 0x48, 0, 0x3D, 0, 0x74, 0xFF, 0x0A, 0xFE, 0x30, 0];
    let mut data = Vec::new();
    for n in 1..=5u8 {
        data.push(n);
        data.extend_from_slice(&five[1..]);
    }
    let places = [667, -760, 1274, 72, 61, -140, -502, 0, 0, 0, 0, 1, 1];
    assert_eq!(shown(6, 6, 5, 1, &data, 5), places);
    let mut out = [0; 60];
    assert_eq!(write_row(6, 6, 5, 0, 5, &places, &mut out), yes(45));
    assert_eq!(&out[..45], b"5,667,-760,1274,72,61,-140,-502,0,0,0,0,1,1\r\n");
}

/// T5: D = 17 has two words and 15 padding bits.
#[test]
fn t5_two_words_and_15_padding_bits() {
    let clean = [1, 0, 0, 0, 0, 0, 0, 0, 0, 0, 1, 0];
    assert_eq!(check(0, 17, 1, 1, &clean), yes(0));
    let places = shown(0, 17, 1, 1, &clean, 1);
    assert_eq!(places.iter().sum::<i64>(), 1);
    assert_eq!(places[17], 1);
    for bit in 1..16 {
        let mut bad = clean;
        bad[10 + bit / 8] |= 1 << (bit % 8);
        assert_eq!(check(0, 17, 1, 1, &bad), no(13, 1, 0), "bit {bit}");
        assert_eq!(check(0, 17, 1, 2, &bad), no(13, 1, 0), "bit {bit}");
    }
}

/// T6: the largest binary row is 232 bytes.
#[test]
fn t6_the_largest_binary_row() {
    let places = [0i64; 353];
    let mut out = [9; 500];
    assert_eq!(write_row(96, 256, 1, 1, 1, &places, &mut out), yes(232));
    assert_eq!(write_row(96, 256, 1, 2, 1, &places, &mut out), yes(424));
    assert_eq!(check(96, 256, 1, 1, &out[..231]), no(11, 0, 0));
}

/// 10: layout out of the sizes, or no such kind.
#[test]
fn layouts_out_of_the_sizes() {
    let bad = [
        (0, 0, 1, 0),
        (97, 0, 1, 0),
        (0, 257, 1, 0),
        (97, 257, 1, 1),
        (1, 1, 0, 0),
        (1, 1, 1_000_001, 1),
        (1, 1, 2, 3),
        (1, 1, 2, u32::MAX),
        (u32::MAX, 1, 1, 0),
        (1, u32::MAX, 1, 0),
        (u32::MAX, u32::MAX, u32::MAX, 2),
        (1, 1, u32::MAX, 2),
        (0, 0, 0, 9),
        (256, 96, 1, 0),
    ];
    for (a, d, rows, kind) in bad {
        let mut places = [4; 400];
        let mut out = [4; 2000];
        assert_eq!(check(a, d, rows, kind, T1), no(10, 0, 0));
        assert_eq!(row(a, d, rows, kind, T1, 0, &mut places), no(10, 0, 0));
        assert_eq!(write_row(a, d, rows, kind, 0, &[0; 400], &mut out), no(10, 0, 0));
        assert_eq!((places, out), ([4; 400], [4; 2000]));
    }
    assert_eq!(check(96, 256, 1, 1, &[]), no(11, 0, 0));
    assert_eq!(check(1, 1, 1_000_000, 1, T2), no(11, 0, 0));
    assert_eq!(check(1, 1, 1_000_000, 0, T1), no(14, 3, 0));
}

/// 15 where a row is asked for; then the file.
#[test]
fn no_such_row_comes_before_the_file() {
    for n in [0, 3, u32::MAX] {
        for kind in 0..3 {
            let mut places = [4; 9];
            assert_eq!(row(1, 1, 2, kind, b"junk", n, &mut places), no(15, 0, 0));
            assert_eq!(row(1, 1, 2, kind, b"junk", n, &mut []), no(15, 0, 0));
            assert_eq!(places, [4; 9]);
        }
    }
    assert_eq!(row(1, 1, 2, 7, b"junk", 0, &mut []), no(10, 0, 0));
    assert_eq!(row(1, 1, 2, 1, b"junk", 2, &mut []), no(11, 0, 0));
}

/// A refusal of any row refuses every row.
#[test]
fn a_row_is_refused_with_its_file() {
    let mut data = T2.to_vec();
    data[12] = 9;
    assert_eq!(row(1, 1, 2, 1, &data, 1, &mut [0; 3]), no(12, 2, 1));
    assert_eq!(row(1, 1, 2, 0, b"1,0,-3,0\r\n2,1000,300,2\r\n", 1, &mut [0; 3]), no(14, 2, 4));
    assert_eq!(row(1, 1, 2, 0, b"1,0,-3,0\r\n2,1000,300,1\r\nX", 1, &mut [0; 3]), no(11, 3, 0));
}

/// 17: no room, last of all.
#[test]
fn room_for_a_row() {
    for (kind, data) in [(0, T1), (1, T2), (2, T3)] {
        let mut two = [7; 2];
        assert_eq!(row(1, 1, 2, kind, data, 2, &mut two), no(17, 0, 0));
        assert_eq!(two, [7; 2]);
        let mut three = [7; 3];
        assert_eq!(row(1, 1, 2, kind, data, 2, &mut three), yes(0));
        assert_eq!(three, [1000, 300, 1]);
    }
    assert_eq!(row(1, 1, 2, 1, &T2[..23], 2, &mut []), no(11, 0, 0));
}

/// The file is exactly rows times row size, else 11 at 0, 0.
#[test]
fn binary_lengths() {
    for rows in 1..=4 {
        for (kind, data) in [(1, T2), (2, T3)] {
            let want = if rows == 2 { yes(0) } else { no(11, 0, 0) };
            assert_eq!(check(1, 1, rows, kind, data), want);
        }
    }
    for cut in 0..24 {
        assert_eq!(check(1, 1, 2, 1, &T2[..cut]), no(11, 0, 0));
    }
    let mut longer = T2.to_vec();
    longer.push(0x1A);
    assert_eq!(check(1, 1, 2, 1, &longer), no(11, 0, 0));
    assert_eq!(check(1, 1, 2, 2, T2), no(11, 0, 0));
}

/// Binary kinds: 11, then each row 12, 13.
#[test]
fn binary_numbers_and_padding() {
    for byte in [0, 1, 2, 3, 12, 13, 14, 15] {
        let mut data = T2.to_vec();
        data[byte] ^= 0x80;
        assert_eq!(check(1, 1, 2, 1, &data), no(12, byte as u32 / 12 + 1, 1));
    }
    let mut data = T2.to_vec();
    data[10] = 2;
    assert_eq!(check(1, 1, 2, 1, &data), no(13, 1, 0));
    data[12] = 7;
    assert_eq!(check(1, 1, 2, 1, &data), no(13, 1, 0));
    data[0] = 7;
    assert_eq!(check(1, 1, 2, 1, &data), no(12, 1, 1));
    let mut data = T2.to_vec();
    data[23] = 0x80;
    assert_eq!(check(1, 1, 2, 1, &data), no(13, 2, 0));
    data[12] = 7;
    assert_eq!(check(1, 1, 2, 1, &data), no(12, 2, 1));
}

/// Bit 0 of the first word is status channel 1; bits past D are zero.
#[test]
fn status_words() {
    // D = 0: no words.
    assert_eq!(shown(1, 0, 1, 1, &[1, 0, 0, 0, 0xFF, 0xFF, 0xFF, 0xFF, 1, 0x80], 1), [4_294_967_295, -32_767]);
    // D = 16: one word, no padding.
    let full = [1, 0, 0, 0, 0, 0, 0, 0, 0xFF, 0xFF];
    assert_eq!(shown(0, 16, 1, 1, &full, 1)[1..], [1; 16]);
    // D = 15: the highest bit is padding.
    assert_eq!(check(0, 15, 1, 1, &full), no(13, 1, 0));
    // D = 32: two words; bit 0 of the second word is status channel 17.
    let mut two = [1, 0, 0, 0, 0, 0, 0, 0, 0x01, 0x80, 0x01, 0x80];
    let places = shown(0, 32, 1, 1, &two, 1);
    let on: Vec<usize> = (1..=32).filter(|&channel| places[channel] == 1).collect();
    assert_eq!(on, [1, 16, 17, 32]);
    two[11] = 0;
    assert_eq!(check(0, 31, 1, 1, &two), yes(0));
    assert_eq!(check(0, 16, 1, 1, &two), no(11, 0, 0));
    for d in 1..=256u32 {
        let words = d.div_ceil(16) as usize;
        let mut data = vec![1, 0, 0, 0, 0, 0, 0, 0];
        data.resize(8 + 2 * words, 0);
        for bit in 0..words * 16 {
            data[8 + bit / 8] = 1 << (bit % 8);
            if bit < d as usize {
                let places = shown(0, d, 1, 1, &data, 1);
                assert_eq!(places.iter().sum::<i64>(), 1);
                assert_eq!(places[1 + bit], 1);
            } else {
                assert_eq!(check(0, d, 1, 1, &data), no(13, 1, 0));
            }
            data[8 + bit / 8] = 0;
        }
    }
}

/// Samples in two's complement, low byte first, the lowest pattern a missing one; the timestamp is any 32-bit number.
#[test]
fn binary_samples() {
    let mut data = vec![1, 0, 0, 0, 1, 2, 3, 4];
    data.extend_from_slice(&[0xFF, 0x7F, 0x00, 0x80, 0x01, 0x80, 0xFF, 0xFF]);
    assert_eq!(shown(4, 0, 1, 1, &data, 1), [0x0403_0201, 32_767, NONE, -32_767, -1]);
    let mut data = vec![1, 0, 0, 0, 1, 2, 3, 0xF4];
    data.extend_from_slice(&[0xFF, 0xFF, 0xFF, 0x7F, 0, 0, 0, 0x80, 1, 0, 0, 0x80]);
    data.extend_from_slice(&[0xFF, 0xFF, 0xFF, 0xFF, 0, 0x80, 0, 0]);
    assert_eq!(shown(5, 0, 1, 2, &data, 1), [0xF403_0201, 2_147_483_647, NONE, -2_147_483_647, -1, 32_768]);
}

/// After the last row comes nothing, or 1A hex, or 1A 0D 0A; else 11 at row rows + 1.
#[test]
fn text_endings() {
    let rows = b"1,0,-3,0\r\n2,1000,300,1\r\n";
    for ending in [&b""[..], b"\x1A", b"\x1A\r\n"] {
        assert_eq!(text(2, &[rows, ending].concat()), yes(0));
        assert_eq!(shown(1, 1, 2, 0, &[rows, ending].concat(), 2), [1000, 300, 1]);
    }
    for ending in [
        &b"\x1A\r"[..],
        b"\x1A\n",
        b"\x1A\x1A",
        b"\r\n",
        b"3,2000,300,1\r\n",
        b"\r",
        b"\n",
        b" ",
        b"\x1A\r\n\r\n",
        b"\x1A\r\n\x1A",
        b"\x1A ",
        b"\x00",
        b"\r\n\x1A",
        b"\x1A\r\n ",
        b"\x1A\n\r",
    ] {
        assert_eq!(text(2, &[rows, ending].concat()), no(11, 3, 0), "{ending:?}");
    }
}

/// 11 for an early end, 14 for a bad byte.
#[test]
fn text_lines() {
    assert_eq!(text(1, b""), no(11, 1, 0));
    assert_eq!(text(1, b"1,0,-3,0"), no(11, 1, 0));
    assert_eq!(text(1, b"1,0,-3,0\r"), no(14, 1, 0));
    assert_eq!(text(1, b"1,0,-3,0\n"), no(14, 1, 0));
    assert_eq!(text(1, b"1,0,-3,0\r\r\n"), no(14, 1, 0));
    assert_eq!(text(1, b"1,0,-3,0\x1A"), no(14, 1, 0));
    assert_eq!(text(1, b"\x1A\r\n"), no(14, 1, 0));
    assert_eq!(text(1, b"\x1A"), no(14, 1, 0));
    assert_eq!(text(2, b"1,0,-3,0\r\n"), no(11, 2, 0));
    assert_eq!(text(2, b"1,0,-3,0\r\n\x1A"), no(14, 2, 0));
    assert_eq!(text(2, b"1,0,-3,0\r\n\x1A\r\n"), no(14, 2, 0));
    assert_eq!(text(2, b"1,0,-3,0\r\n2,0,-3,0"), no(11, 2, 0));
    assert_eq!(text(2, b"1,0,-3,0\r\n2,0,-3,0\r"), no(14, 2, 0));
    assert_eq!(text(1, b"\r\n"), no(14, 1, 0));
    assert_eq!(text(1, b" \r\n"), no(14, 1, 0));
    for byte in 0..=255u8 {
        let line = [b'1', b',', b'0', b',', byte, b'3', b',', b'0', b'\r', b'\n'];
        let want = match byte {
            b' ' | b'+' | b'-' | b'0'..=b'9' => yes(0),
            b',' => no(14, 1, 0),
            32..=126 => no(14, 1, 3),
            _ => no(14, 1, 0),
        };
        assert_eq!(text(1, &line), want, "{byte}");
    }
}

/// Text row, bytes before its line end: most 1,880; 14 at the 1,881st byte if that is not CR.
#[test]
fn the_longest_text_row() {
    let mut line = b"         1,            5".to_vec();
    for _ in 0..96 {
        line.extend_from_slice(b",            7");
    }
    for _ in 0..256 {
        line.extend_from_slice(b",1");
    }
    assert_eq!(line.len(), 1880);
    let ask = |data: &[u8]| check(96, 256, 1, 0, data);
    assert_eq!(ask(&line), no(11, 1, 0));
    assert_eq!(ask(&[&line[..], b"\r\n"].concat()), yes(0));
    assert_eq!(ask(&[&line[..], b"\r"].concat()), no(14, 1, 0));
    assert_eq!(ask(&[&line[..], b"\r "].concat()), no(14, 1, 0));
    assert_eq!(ask(&[&line[..], b" "].concat()), no(14, 1, 0));
    assert_eq!(ask(&[&line[..], b"\n"].concat()), no(14, 1, 0));
    assert_eq!(ask(&[&line[..], b" \r\n"].concat()), no(14, 1, 0));
    assert_eq!(text(1, &[&[b'x'; 1880][..], b"\r\n"].concat()), no(14, 1, 0));
    assert_eq!(text(1, &[b'x'; 1880]), no(11, 1, 0));
    assert_eq!(text(1, &[b'x'; 1881]), no(14, 1, 0));
    assert_eq!(shown(96, 256, 1, 0, &[&line[..], b"\r\n"].concat(), 1).iter().sum::<i64>(), 5 + 96 * 7 + 256);
}

/// The check of one text row with A = 1, D = 1.
fn one(line: &str) -> Answer {
    text(1, format!("{line}\r\n").as_bytes())
}

/// 14 for the field count, 0 for the whole line.
#[test]
fn text_field_counts_come_first() {
    for line in ["1,0,-3", "1,0,-3,0,", "1,0,-3,0,0", "", ",,", ",,,,", "9,x"] {
        assert_eq!(one(line), no(14, 1, 0), "{line}");
    }
    assert_eq!(one(",,,"), no(14, 1, 1));
}

/// Number (1 to 10 digits): in field 1 first 14 and then 12.
#[test]
fn text_row_numbers() {
    for number in ["1", " 1", "0000000001", "         1", " 01"] {
        assert_eq!(one(&format!("{number},0,-3,0")), yes(0), "{number}");
    }
    for number in ["", " ", "+1", "-1", "1 ", "1.0", "x", "00000000001", "          1", "1E0"] {
        assert_eq!(one(&format!("{number},x,x,x")), no(14, 1, 1), "{number}");
    }
    for number in ["0", "2", "9999999999", "4294967297", " 10"] {
        assert_eq!(one(&format!("{number},x,x,x")), no(12, 1, 1), "{number}");
    }
    assert_eq!(text(2, b"1,0,-3,0\r\n1,0,-3,0\r\n"), no(12, 2, 1));
    assert_eq!(text(2, b"1,0,-3,0\r\n3,0,-3,0\r\n"), no(12, 2, 1));
    assert_eq!(text(2, b"1,0,-3,x\r\n3,0,-3,0\r\n"), no(14, 1, 4));
}

/// Timestamp (1 to 13 digits, at most 4,294,967,295).
#[test]
fn text_timestamps() {
    for time in ["0", "4294967295", "0004294967295", "            0", " 007"] {
        assert_eq!(one(&format!("1,{time},-3,0")), yes(0), "{time}");
    }
    for time in ["", " ", "4294967296", "9999999999999", "-0", "+0", "0 ", "00000000000000", "             0", "1.0"] {
        assert_eq!(one(&format!("1,{time},x,x")), no(14, 1, 2), "{time}");
    }
}

/// Samples (1 to 13 characters, optional sign and digits) of the range of binary32, or an empty field.
#[test]
fn text_samples() {
    let good = [
        ("+5", 5),
        ("-0", 0),
        (" -5", -5),
        ("0000000000005", 5),
        ("2147483647", 2_147_483_647),
        ("-2147483647", -2_147_483_647),
        ("-32768", -32_768),
        ("            5", 5),
        ("+000000000005", 5),
        ("", NONE),
    ];
    for (sample, value) in good {
        let line = format!("1,0,{sample},1\r\n");
        assert_eq!(shown(1, 1, 1, 0, line.as_bytes(), 1), [0, value, 1], "{sample}");
    }
    let bad = [
        "- 5",
        "-",
        "+",
        "5.0",
        "1E2",
        " ",
        "             ",
        "5 ",
        "x",
        "2147483648",
        "-2147483648",
        "-002147483648",
        "-2147483649",
        "9999999999999",
        "-999999999999",
        "00000000000005",
        "             5",
        "--5",
    ];
    for sample in bad {
        assert_eq!(one(&format!("1,0,{sample},x")), no(14, 1, 3), "{sample}");
    }
    for sample in ["99999", ""] {
        assert_eq!(one(&format!("1,0,{sample},x")), no(14, 1, 4), "{sample}");
    }
}

/// Statuses: one character, 0 or 1, no leading spaces.
#[test]
fn text_statuses() {
    for status in ["", " ", "2", " 0", "0 ", "00", "01", "+0", "-", "x"] {
        assert_eq!(one(&format!("1,0,-3,{status}")), no(14, 1, 4), "{status}");
    }
    assert_eq!(one("1,0,-3,1"), yes(0));
    assert_eq!(check(0, 3, 1, 0, b"1,0,1,0,2\r\n"), no(14, 1, 5));
    assert_eq!(check(3, 0, 1, 0, b"1,0,1,0,2\r\n"), yes(0));
}

/// A "yes" that writes changes only the bytes it reports; no end mark is added.
#[test]
fn writing_the_recording() {
    let rows = [[0, -3, 0], [1000, 300, 1]];
    for (kind, data) in [(0, &T1[..24]), (1, T2), (2, T3)] {
        let mut written = Vec::new();
        for (n, places) in (1..).zip(&rows) {
            let mut out = [0xEE; 40];
            let answer = write_row(1, 1, 2, kind, n, places, &mut out);
            assert_eq!(answer, yes(answer.length));
            let length = answer.length as usize;
            assert!(out[length..].iter().all(|&byte| byte == 0xEE));
            let mut exact = vec![0; length];
            assert_eq!(write_row(1, 1, 2, kind, n, places, &mut exact), answer);
            assert_eq!(exact, out[..length]);
            let mut short = vec![0xEE; length - 1];
            assert_eq!(write_row(1, 1, 2, kind, n, places, &mut short), no(17, 0, 0));
            assert_eq!(short, vec![0xEE; length - 1]);
            written.extend_from_slice(&exact);
        }
        assert_eq!(written, data);
    }
}

/// Writing one row: 10, 15, 16, 17.
#[test]
fn writing_order() {
    let mut out = [1; 3];
    assert_eq!(write_row(1, 1, 2, 0, 0, &[0, 0], &mut out), no(10, 0, 0));
    assert_eq!(write_row(1, 1, 2, 0, 0, &[], &mut out), no(10, 0, 0));
    assert_eq!(write_row(1, 1, 2, 0, 0, &[-1, 0, 0], &mut out), no(15, 0, 0));
    assert_eq!(write_row(1, 1, 2, 0, 3, &[-1, 0, 0], &mut out), no(15, 0, 0));
    assert_eq!(write_row(1, 1, 2, 0, 2, &[-1, i64::MAX, 5], &mut out), no(16, 2, 2));
    assert_eq!(write_row(1, 1, 2, 0, 2, &[0, i64::MAX, 5], &mut out), no(16, 2, 3));
    assert_eq!(write_row(1, 1, 2, 0, 2, &[0, 0, 5], &mut out), no(16, 2, 4));
    assert_eq!(write_row(1, 1, 2, 0, 2, &[0, 0, 1], &mut out), no(17, 0, 0));
    assert_eq!(out, [1; 3]);
}

/// 16 at the row and the first field that does not fit; places past A and D are not read.
#[test]
fn what_fits_a_field() {
    let mut out = [0; 99];
    let mut fits = |kind, places: &[i64]| write_row(1, 1, 1, kind, 1, places, &mut out);
    for kind in 0..3 {
        assert_eq!(fits(kind, &[4_294_967_295, 0, 0]).number, 0);
        for time in [-1, 4_294_967_296, i64::MIN, i64::MAX] {
            assert_eq!(fits(kind, &[time, 0, 0]), no(16, 1, 2));
        }
        for status in [-1, 2, i64::MIN, i64::MAX, 256, 65_536] {
            assert_eq!(fits(kind, &[0, 0, status]), no(16, 1, 4));
        }
        let high = if kind == 1 { 32_767 } else { 2_147_483_647 };
        for sample in [-high, high, NONE] {
            assert_eq!(fits(kind, &[0, sample, 0]).number, 0);
        }
        for sample in [-high - 1, -high - 2, high + 1, i64::MIN + 1, i64::MAX] {
            assert_eq!(fits(kind, &[0, sample, 0]), no(16, 1, 3));
        }
    }
    // Places past A and D are not read.
    assert_eq!(fits(0, &[0, 0, 0, i64::MIN, i64::MAX]), yes(9));
}

/// The plain written form has no spaces, no plus, no needless zeros.
#[test]
fn the_plain_form() {
    let mut out = [0; 60];
    let places = [4_294_967_295, -2_147_483_647, NONE, 0, 1];
    let answer = write_row(3, 1, 1_000_000, 0, 1_000_000, &places, &mut out);
    assert_eq!(&out[..answer.length as usize], b"1000000,4294967295,-2147483647,,0,1\r\n");
}

/// Rows written and then shown are the same rows.
#[test]
fn what_is_written_is_read_again() {
    let mut dice = Dice::new(7);
    for round in 0..200 {
        let kind = round % 3;
        let (a, d) = (dice.below(97) as u32, 1 + dice.below(256) as u32);
        let rows = 1 + dice.below(4) as u32;
        let mut data = Vec::new();
        let mut all = Vec::new();
        for n in 1..=rows {
            let mut places = vec![dice.below(1 << 31) as i64 * 2 + dice.below(2) as i64];
            for _ in 0..a {
                let sample = dice.below(1 << 31) as i64 - (1 << 30);
                let sample = if kind == 1 { sample >> 15 } else { sample };
                places.push(if dice.once_in(5) || sample == -32_768 { NONE } else { sample });
            }
            for _ in 0..d {
                places.push(dice.below(2) as i64);
            }
            let mut out = [0; 2000];
            let answer = write_row(a, d, rows, kind, n, &places, &mut out);
            assert_eq!(answer.number, 0);
            data.extend_from_slice(&out[..answer.length as usize]);
            all.push(places);
        }
        assert_eq!(check(a, d, rows, kind, &data), yes(0));
        for n in 1..=rows {
            assert_eq!(shown(a, d, rows, kind, &data, n), all[n as usize - 1]);
        }
    }
}
