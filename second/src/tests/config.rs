use super::{join, no, of_size, with, yes, S};
use crate::config;

/// The answer for a configuration; a "no" changes no lent place, a "yes" only the first 35.
pub fn ask(cfg: &[u8]) -> crate::Answer {
    let mut shown = [-77; 40];
    let answer = config(cfg, &mut shown);
    if answer.number == 0 {
        assert_eq!(answer, yes(0));
        assert_eq!(shown[35..], [-77; 5]);
    } else {
        assert_eq!(shown, [-77; 40]);
    }
    answer
}

/// The 35 places of an accepted configuration.
pub fn shown(cfg: &[u8]) -> [i64; 35] {
    let mut shown = [-1; 35];
    assert_eq!(config(cfg, &mut shown), yes(0));
    shown
}

/// Each text as the given line of S is refused so, or accepted where the number is 0.
fn each(line: usize, cases: &[(&str, u32, u32)]) {
    for &(text, number, field) in cases {
        let want = if number == 0 { yes(0) } else { no(number, line as u32, field) };
        assert_eq!(ask(&with(&[(line, text)])), want, "line {line}: {text:?}");
    }
}

/// An accepted configuration shows A, D, the last rows, both dates and times, and the rest of the list.
#[test]
fn the_recording_is_shown() {
    let want = [
        1, 1, 1, 2, 2, 0, 0, 0, 0, 0, 0, 0, 2024, 2, 3, 9, 15, 0, 0, 2024, 2, 3, 9, 15, 0, 1_000_000, 0, 1_000_000, 0,
        0, 0, 0, 0, 3, 2013,
    ];
    assert_eq!(shown(&join(&S)), want);
}

/// 17 is the last of all.
#[test]
fn room_for_35_places_is_the_last_test() {
    let mut short = [5; 34];
    assert_eq!(config(&join(&S), &mut short), no(17, 0, 0));
    assert_eq!(short, [5; 34]);
    assert_eq!(config(&with(&[(13, "0,4")]), &mut short), no(6, 13, 2));
    let mut longer = join(&S);
    longer.push(b'x');
    assert_eq!(config(&longer, &mut short), no(9, 14, 0));
    assert_eq!(config(b"", &mut []), no(2, 1, 0));
}

/// Order, configuration: 1, then line by line.
#[test]
fn the_size_is_first() {
    assert_eq!(ask(&vec![b' '; 65_536]), no(2, 1, 0));
    assert_eq!(ask(&vec![b' '; 65_537]), no(1, 0, 0));
    assert_eq!(ask(&vec![0; 65_537]), no(1, 0, 0));
    let mut long = join(&S);
    long.resize(65_537, 0);
    assert_eq!(ask(&long), no(1, 0, 0));
    long.pop();
    assert_eq!(ask(&long), no(9, 14, 0));
}

/// Configuration, bytes: most 65,536.
#[test]
fn a_configuration_of_65536_bytes_may_pass() {
    let bytes = of_size(65_536, "ASCII");
    assert_eq!(bytes.len(), 65_536);
    assert_eq!(ask(&bytes), yes(0));
    assert_eq!(shown(&bytes)[..4], [96, 256, 1, 2]);
}

/// T11: the empty configuration is 2 at line 1.
#[test]
fn t11_the_empty_configuration() {
    assert_eq!(ask(b""), no(2, 1, 0));
}

/// 2: file ends before or inside a line.
#[test]
fn a_file_that_ends_at_or_in_a_line() {
    for keep in 0..13 {
        assert_eq!(ask(&join(&S[..keep])), no(2, keep as u32 + 1, 0), "{keep} lines");
    }
    for keep in 1..12 {
        let mut bytes = join(&S[..keep]);
        bytes.truncate(bytes.len() - 2);
        assert_eq!(ask(&bytes), no(2, keep as u32, 0), "cut in line {keep}");
        bytes.push(b'\r');
        assert_eq!(ask(&bytes), no(3, keep as u32, 0), "CR at the end in line {keep}");
    }
}

/// Only the last line may end with the file.
#[test]
fn every_cut_of_the_recording() {
    let bytes = join(&S);
    let end = bytes.len();
    for cut in 0..end {
        let line = bytes[..cut].iter().filter(|&&byte| byte == b'\n').count() as u32 + 1;
        let want = if cut == end - 2 {
            yes(0)
        } else if cut > 0 && bytes[cut - 1] == b'\r' {
            no(3, line, 0)
        } else if line == 13 && cut > end - 5 {
            // "0" is one field, "0," has an empty leap second code.
            if cut == end - 4 {
                no(4, 13, 0)
            } else {
                no(5, 13, 2)
            }
        } else {
            no(2, line, 0)
        };
        assert_eq!(ask(&bytes[..cut]), want, "{cut} bytes");
    }
}

/// 9: bytes after the last line, after the fields of the last line itself.
#[test]
fn the_last_line_and_what_follows() {
    let head = join(&S[..12]);
    let cases: [(&[u8], crate::Answer); 22] = [
        (b"0,3", yes(0)),
        (b"0,3\r\n", yes(0)),
        (b"0,3\r", no(3, 13, 0)),
        (b"0,3\n", no(3, 13, 0)),
        (b"0,3\r\r\n", no(3, 13, 0)),
        (b"0,3\x1A", no(3, 13, 0)),
        (b"0,3\x1A\r\n", no(3, 13, 0)),
        (b"0,3\r\n\r\n", no(9, 14, 0)),
        (b"0,3\r\n\x1A", no(9, 14, 0)),
        (b"0,3\r\n\x00", no(9, 14, 0)),
        (b"0,3\r\n\r", no(9, 14, 0)),
        (b"0,3\r\n ", no(9, 14, 0)),
        (b"0,4\r\nX", no(6, 13, 2)),
        (b"0,3,\r\nX", no(4, 13, 0)),
        (b"0,", no(5, 13, 2)),
        (b"0", no(4, 13, 0)),
        (b",", no(5, 13, 1)),
        (b"\r\n", no(4, 13, 0)),
        (b"\r", no(3, 13, 0)),
        (b"\n", no(3, 13, 0)),
        (b"\n\r\n", no(3, 13, 0)),
        (b"", no(2, 13, 0)),
    ];
    for (tail, want) in cases {
        let mut bytes = head.clone();
        bytes.extend_from_slice(tail);
        assert_eq!(ask(&bytes), want, "{tail:?}");
    }
}

/// 3: byte outside 32 to 126 before the line end; a CR without LF after it or a lone LF is 3.
#[test]
fn bad_bytes() {
    assert_eq!(ask(b"Bench\x01"), no(3, 1, 0));
    assert_eq!(ask(b"\r"), no(3, 1, 0));
    assert_eq!(ask(b"\n"), no(3, 1, 0));
    assert_eq!(ask(b"\r\n"), no(4, 1, 0));
    for byte in 0..=255u8 {
        let mut bytes = join(&S);
        bytes[2] = byte;
        let want = match byte {
            b',' => no(4, 1, 0),
            32..=126 => yes(0),
            _ => no(3, 1, 0),
        };
        assert_eq!(ask(&bytes), want, "{byte}");
    }
    for ending in ["\n", "\r\r\n", "\r \n", "\t\r\n", "\u{7f}\r\n", "\n\r"] {
        let text = String::from_utf8(join(&S)).unwrap().replacen("\r\n", ending, 1);
        assert_eq!(ask(text.as_bytes()), no(3, 1, 0), "{ending:?}");
    }
    // A line is scanned whole before its fields are counted or read.
    assert_eq!(ask(b"a,b,c,d,e\x07"), no(3, 1, 0));
    assert_eq!(ask(b"a,b,c,d,e"), no(2, 1, 0));
    assert_eq!(ask(&with(&[(3, "9\u{1},")])), no(3, 3, 0));
}

/// Line by line: an earlier line is refused whatever follows.
#[test]
fn no_look_ahead() {
    let wrong = "2,Ia,A,,A,0.5,0,0,-2048,2047,400,1,S";
    assert_eq!(ask(&with(&[(3, wrong), (9, "\t")])), no(7, 3, 1));
    assert_eq!(ask(b"Bench 2,R7,2012\r\n\xFF"), no(8, 1, 3));
}

/// 4: wrong number of fields.
#[test]
fn field_counts() {
    let counts = [3, 3, 13, 5, 1, 1, 2, 2, 2, 1, 1, 2, 2];
    for (i, count) in counts.into_iter().enumerate() {
        let line = i + 1;
        let more = format!("{},", S[i]);
        assert_eq!(ask(&with(&[(line, &more)])), no(4, line as u32, 0), "more on {line}");
        let front = format!(",{}", S[i]);
        assert_eq!(ask(&with(&[(line, &front)])), no(4, line as u32, 0), "front on {line}");
        if count > 1 {
            let less = &S[i][..S[i].rfind(',').unwrap()];
            assert_eq!(ask(&with(&[(line, less)])), no(4, line as u32, 0), "less on {line}");
        }
    }
}

/// Fields are split at commas: no comma is one field.
#[test]
fn empty_lines_are_one_empty_field() {
    for line in 1..=13u32 {
        let want = match line {
            5 => yes(0),
            6 | 10 | 11 => no(5, line, 1),
            _ => no(4, line, 0),
        };
        assert_eq!(ask(&with(&[(line as usize, "")])), want, "line {line}");
    }
}

/// Station, device, year: 5 for length or form, 8 for a year of four digits, not 2013 or 1999.
#[test]
fn line_1() {
    let s64 = "s".repeat(64);
    let s65 = "s".repeat(65);
    each(
        1,
        &[
            (&format!("{s64},{s64},2013"), 0, 0),
            (",,2013", 0, 0),
            (" , ,2013", 0, 0),
            (&format!("{s65},{s65},2012"), 5, 1),
            (&format!(",{s65},2012"), 5, 2),
            (",,", 5, 3),
            (",, 201", 5, 3),
            (",, 2013", 5, 3),
            (",,2013 ", 5, 3),
            (",,02013", 5, 3),
            (",,201", 5, 3),
            (",,+201", 5, 3),
            (",,201x", 5, 3),
            (",,1998", 8, 3),
            (",,1991", 8, 3),
            (",,0000", 8, 3),
            (",,2014", 8, 3),
            ("~,!,2013", 0, 0),
        ],
    );
}

/// TT, A, D: 5, 6, and 7 at D where TT is not A + D.
#[test]
fn line_2() {
    each(
        2,
        &[
            ("     2,1A,1D", 0, 0),
            ("000002,000001A,     1D", 0, 0),
            ("2, 1A,01D", 0, 0),
            ("      2,1A,1D", 5, 1),
            ("0000002,1A,1D", 5, 1),
            (",1A,1D", 5, 1),
            ("  ,1A,1D", 5, 1),
            ("2 ,1A,1D", 5, 1),
            ("+2,1A,1D", 5, 1),
            ("-0,1A,1D", 5, 1),
            ("2.0,1A,1D", 5, 1),
            ("0,1A,1D", 6, 1),
            ("0,0A,0D", 6, 1),
            ("353,97A,1D", 6, 1),
            ("999999,1A,1D", 6, 1),
            ("2,A,1D", 5, 2),
            ("2, A,1D", 5, 2),
            ("2,1a,1D", 5, 2),
            ("2,1 A,1D", 5, 2),
            ("2,+1A,1D", 5, 2),
            ("2,-1A,1D", 5, 2),
            ("2,1A ,1D", 5, 2),
            ("2,1,1D", 5, 2),
            ("2,1D,1D", 5, 2),
            ("2,1AA,1D", 5, 2),
            ("2,,1D", 5, 2),
            ("2,0000001A,1D", 5, 2),
            ("2,      1A,1D", 5, 2),
            ("2,97A,1D", 6, 2),
            ("2,999999A,1D", 6, 2),
            ("2,1A,1d", 5, 3),
            ("2,1A,D", 5, 3),
            ("2,1A,1A", 5, 3),
            ("2,1A,00000001D", 5, 3),
            ("2,1A,257D", 6, 3),
            ("3,1A,300D", 6, 3),
            ("3,1A,1D", 7, 3),
            ("1,1A,1D", 7, 3),
            ("1,0A,0D", 7, 3),
            ("352,96A,255D", 7, 3),
        ],
    );
}

/// A lines, then D lines, each counted in its own sequence.
#[test]
fn which_lines_follow_from_a_and_d() {
    let mut only_a: Vec<&str> = S.to_vec();
    only_a[1] = "1,1A,0D";
    only_a.remove(3);
    assert_eq!(shown(&join(&only_a))[..2], [1, 0]);
    let mut only_d: Vec<&str> = S.to_vec();
    only_d[1] = "1,0A,1D";
    only_d.remove(2);
    assert_eq!(shown(&join(&only_d))[..2], [0, 1]);
    assert_eq!(ask(&with(&[(2, "1,1A,0D")])), no(4, 4, 0));
    let mut two_d: Vec<&str> = S.to_vec();
    two_d[1] = "3,1A,2D";
    two_d.insert(4, "2,Open,,,1");
    assert_eq!(shown(&join(&two_d))[..2], [1, 2]);
    two_d[4] = "3,Open,,,1";
    assert_eq!(ask(&join(&two_d)), no(7, 5, 1));
    two_d[4] = "1,Open,,,1";
    assert_eq!(ask(&join(&two_d)), no(7, 5, 1));
}

/// The analog line of S with one field replaced.
fn analog(field: usize, text: &str) -> String {
    let mut fields: Vec<&str> = S[2].split(',').collect();
    fields[field - 1] = text;
    fields.join(",")
}

/// Name (1 to 128), phase (0 to 2), circuit (0 to 64), unit (1 to 32).
#[test]
fn analog_text_fields() {
    for (field, least, most) in [(2, 1, 128), (3, 0, 2), (4, 0, 64), (5, 1, 32)] {
        for length in [0, 1, 2, 3, 32, 33, 64, 65, 128, 129] {
            let line = analog(field, &" ".repeat(length));
            let right = (least..=most).contains(&length);
            each(3, &[(&line, if right { 0 } else { 5 }, field as u32)]);
        }
    }
    each(3, &[(&analog(5, "m/s^2 (%)"), 0, 0), (&analog(3, "~!"), 0, 0)]);
}

/// An index has no range, a wrong one is 7.
#[test]
fn indices() {
    let cases = [
        ("1", 0),
        (" 1", 0),
        ("000001", 0),
        ("     1", 0),
        ("0", 7),
        ("2", 7),
        ("999999", 7),
        ("", 5),
        (" ", 5),
        ("1 ", 5),
        ("+1", 5),
        ("-1", 5),
        ("1.0", 5),
        ("0000001", 5),
        ("      1", 5),
        ("A1", 5),
    ];
    for (text, number) in cases {
        each(3, &[(&analog(1, text), number, 1)]);
        each(4, &[(&format!("{text},Trip,,,0"), number, 1)]);
    }
}

/// a, b, skew, primary, secondary: each 1 to 32, a real without a range.
#[test]
fn analog_reals() {
    let long = format!("{}1", "0".repeat(31));
    let longer = format!("{}1", " ".repeat(32));
    for field in [6, 7, 8, 11, 12] {
        for text in ["0", "-50", "1E999", "1E-999", "+1.50e-03", "007", " 5", "99999999999999999999999999999999", &long]
        {
            each(3, &[(&analog(field, text), 0, 0)]);
        }
        for text in ["", " ", "1.", ".5", "1E", "1E+", "1E0000", "5 ", "- 5", "abc", "0.123 E4", &longer] {
            each(3, &[(&analog(field, text), 5, field as u32)]);
        }
    }
}

/// min 5, 6; max 5, 6, 7, as exact decimals; both before field 11.
#[test]
fn min_and_max() {
    let at = |min: &str, max: &str| {
        let mut fields: Vec<&str> = S[2].split(',').collect();
        fields[8] = min;
        fields[9] = max;
        fields[10] = "?";
        fields.join(",")
    };
    let cases = [
        ("-3.4028235E38", "3.4028235E38", 5, 11),
        ("3.4028235E38", "3.4028235E38", 5, 11),
        ("3.40282351E38", "0", 6, 9),
        ("-3.40282351E3", "0", 5, 11),
        ("-3.402823E+39", "?", 6, 9),
        ("-1E39", "0", 6, 9),
        ("0", "1E39", 6, 10),
        ("0", "3.4028236E38", 6, 10),
        ("0", "3.40282351E38", 6, 10),
        ("5", "-1E39", 6, 10),
        ("0E999", "0E-999", 5, 11),
        ("1E-999", "0", 7, 10),
        ("0", "1E-999", 5, 11),
        ("0", "-1E-999", 7, 10),
        ("16777217", "16777216", 7, 10),
        ("16777216", "16777217", 5, 11),
        ("-16777216", "-16777217", 7, 10),
        ("0", "-0", 5, 11),
        ("-0", "0", 5, 11),
        ("10", "1.0E1", 5, 11),
        ("1.0E1", "10", 5, 11),
        ("10.1", "1.0E1", 7, 10),
        ("-2", "-3", 7, 10),
        ("-3", "-2", 5, 11),
        ("1", "-1", 7, 10),
        ("9999999999999", "9999999999998", 7, 10),
        ("0000000000001", "            1", 5, 11),
        ("00000000000001", "1", 5, 9),
        ("", "", 5, 9),
        ("1E39", "", 6, 9),
        ("0", "", 5, 10),
        ("0", "00000000000001", 5, 10),
        ("0", "1 ", 5, 10),
        (".5", "1", 5, 9),
    ];
    for (min, max, number, field) in cases {
        each(3, &[(&at(min, max), number, field)]);
    }
    each(3, &[(&analog(10, "-2048"), 0, 0), (&analog(10, "-2048.0000001"), 7, 10)]);
}

/// One of p P s S: not one character is 5, another character 6.
#[test]
fn primary_or_secondary() {
    for text in ["p", "P", "s", "S"] {
        each(3, &[(&analog(13, text), 0, 0)]);
    }
    each(3, &[(&analog(13, ""), 5, 13), (&analog(13, "ps"), 5, 13), (&analog(13, " s"), 5, 13)]);
    each(3, &[(&analog(13, " "), 6, 13), (&analog(13, "x"), 6, 13), (&analog(13, "1"), 6, 13)]);
}

/// Index, name, phase, circuit, normal state 0 or 1.
#[test]
fn status_lines() {
    let n128 = "n".repeat(128);
    let c64 = "c".repeat(64);
    each(
        4,
        &[
            (&format!("1,{n128},12,{c64},1"), 0, 0),
            ("1,n,,,0", 0, 0),
            ("1, ,,,0", 0, 0),
            ("1,,,,0", 5, 2),
            (&format!("1,{n128}n,123,,0"), 5, 2),
            ("1,n,123,,0", 5, 3),
            (&format!("1,n,,{c64}c,2"), 5, 4),
            ("1,n,,,", 5, 5),
            ("1,n,,,00", 5, 5),
            ("1,n,,, 0", 5, 5),
            ("1,n,,,2", 6, 5),
            ("1,n,,, ", 6, 5),
            ("1,n,,,-", 6, 5),
            ("2,,,,", 7, 1),
        ],
    );
}

/// Line frequency: empty or a real of 1 to 32 characters.
#[test]
fn frequency() {
    let long = format!("{}5", "0".repeat(31));
    let longer = format!("{}5", "0".repeat(32));
    each(
        5,
        &[
            ("", 0, 0),
            ("60", 0, 0),
            ("16.7", 0, 0),
            ("0", 0, 0),
            ("-50", 0, 0),
            ("1E999", 0, 0),
            (&long, 0, 0),
            (" ", 5, 1),
            (&longer, 5, 1),
            ("50 ", 5, 1),
            ("50Hz", 5, 1),
            (".5", 5, 1),
        ],
    );
}

/// Number of rates, 1 to 3 digits, 0 to 8.
#[test]
fn number_of_rates() {
    each(
        6,
        &[
            ("001", 0, 0),
            ("  1", 0, 0),
            ("", 5, 1),
            (" ", 5, 1),
            ("0001", 5, 1),
            ("   1", 5, 1),
            ("+1", 5, 1),
            ("-0", 5, 1),
            ("1 ", 5, 1),
            ("0009", 5, 1),
            ("9", 6, 1),
            ("999", 6, 1),
            ("009", 6, 1),
        ],
    );
}

/// Each rate is above zero; last rows (1 to 10 digits) are 1 to 1,000,000.
#[test]
fn rate_lines() {
    let long = format!("{}1,2", "0".repeat(31));
    let longer = format!("{}1,2", "0".repeat(32));
    each(
        7,
        &[
            ("1E-999,2", 0, 0),
            ("0.001,2", 0, 0),
            ("+5,2", 0, 0),
            (&long, 0, 0),
            ("99999999999999999999999999999999,2", 0, 0),
            (&longer, 5, 1),
            (",2", 5, 1),
            (" ,2", 5, 1),
            ("1.,2", 5, 1),
            ("0,2", 6, 1),
            ("-0,2", 6, 1),
            ("-5,2", 6, 1),
            ("0E9,2", 6, 1),
            ("0,", 6, 1),
            ("1000,0000000002", 0, 0),
            ("1000,         2", 0, 0),
            ("1000,1000000", 0, 0),
            ("1000,", 5, 2),
            ("1000,00000000002", 5, 2),
            ("1000,+2", 5, 2),
            ("1000,-0", 5, 2),
            ("1000,2 ", 5, 2),
            ("1000,2.0", 5, 2),
            ("1000,0", 6, 2),
            ("1000,1000001", 6, 2),
            ("1000,9999999999", 6, 2),
            ("1000", 4, 0),
            ("", 4, 0),
        ],
    );
}

/// With 0 rates, one such line whose rate is zero.
#[test]
fn zero_rates_have_one_line() {
    for zero in ["0", "000", "  0"] {
        for rate in ["0", "0.0E5", "-0", "+0", "0E999"] {
            let line = format!("{rate},7");
            let places = shown(&with(&[(6, zero), (7, &line)]));
            assert_eq!(places[2..12], [0, 7, 7, 0, 0, 0, 0, 0, 0, 0]);
        }
    }
    for (line, number, field) in
        [("50,2", 6, 1), ("-1,2", 6, 1), ("1E-999,2", 6, 1), ("0,0", 6, 2), (",2", 5, 1), ("", 4, 0)]
    {
        assert_eq!(ask(&with(&[(6, "0"), (7, line)])), no(number, 7, field), "{line}");
    }
}

/// S with these rate lines.
fn rates(lines: &[&str]) -> Vec<u8> {
    let count = lines.len().to_string();
    let mut all = S[..5].to_vec();
    all.push(&count);
    all.extend_from_slice(lines);
    all.extend_from_slice(&S[7..]);
    join(&all)
}

/// Last rows strictly rise; the last of them is the number of rows.
#[test]
fn last_rows_strictly_rise() {
    let eight = ["8,1", "7,2", "6,3", "5,40", "4,500", "3,6000", "2,70000", "1,1000000"];
    assert_eq!(shown(&rates(&eight))[2..12], [8, 1_000_000, 1, 2, 3, 40, 500, 6000, 70_000, 1_000_000]);
    assert_eq!(shown(&rates(&eight[..3]))[2..12], [3, 3, 1, 2, 3, 0, 0, 0, 0, 0]);
    assert_eq!(ask(&rates(&["1,5", "1,5"])), no(7, 8, 2));
    assert_eq!(ask(&rates(&["1,5", "1,4"])), no(7, 8, 2));
    assert_eq!(ask(&rates(&["1,5", "1,6", "1,6"])), no(7, 9, 2));
    assert_eq!(ask(&rates(&["1,5", "1,0"])), no(6, 8, 2));
    assert_eq!(ask(&rates(&["1,5", "0,4"])), no(6, 8, 1));
    assert_eq!(ask(&rates(&["1,1000000", "1,1000001"])), no(6, 8, 2));
    assert_eq!(ask(&rates(&["1,1", "1,2", "1,3", "1,4", "1,5", "1,6", "1,7", "1,8", "1,9"])), no(6, 6, 1));
}

/// 9 is given at the line after the last.
#[test]
fn the_last_line_moves_with_the_rates() {
    let mut bytes = rates(&["1,1", "1,2"]);
    bytes.push(b'X');
    assert_eq!(ask(&bytes), no(9, 15, 0));
}

/// Years 1900 to 9999, Gregorian days: 5 for the pattern, then 6.
#[test]
fn dates() {
    let cases = [
        ("03/02/2024", 0),
        ("29/02/2024", 0),
        ("29/02/2000", 0),
        ("31/12/9999", 0),
        ("01/01/1900", 0),
        ("30/04/2024", 0),
        ("31/01/2024", 0),
        ("3/02/2024", 5),
        ("31/13/20x4", 5),
        ("", 5),
        ("03-02-2024", 5),
        ("03/02/24", 5),
        (" 3/02/2024", 5),
        ("03/02/2024 ", 5),
        ("31/04/2024", 6),
        ("29/02/1900", 6),
        ("29/02/2100", 6),
        ("29/02/2023", 6),
        ("30/02/2024", 6),
        ("00/01/2024", 6),
        ("32/01/2024", 6),
        ("01/00/2024", 6),
        ("01/13/2024", 6),
        ("01/01/1899", 6),
        ("01/01/0000", 6),
        ("99/99/9999", 6),
        ("31/06/2024", 6),
        ("31/09/2024", 6),
        ("31/11/2024", 6),
    ];
    for (date, number) in cases {
        for line in [8, 9] {
            each(line, &[(&format!("{date},09:15:00.000000"), number, 1)]);
        }
    }
}

/// T10: 29/02/1900 is 6.
#[test]
fn t10_no_leap_day_in_1900() {
    assert_eq!(ask(&with(&[(8, "29/02/1900,09:15:00.000000")])), no(6, 8, 1));
}

/// Hours 00 to 23, minutes and seconds 00 to 59: 5 for the pattern, then 6.
#[test]
fn times() {
    let cases = [
        ("00:00:00.000000", 0),
        ("23:59:59.999999", 0),
        ("23:59:59.999999999", 0),
        ("09:15:00.0000000", 0),
        ("24:00:00.000000", 6),
        ("09:60:00.000000", 6),
        ("09:15:60.000000", 6),
        ("99:99:99.999999999", 6),
        ("", 5),
        ("09:15:00", 5),
        ("09:15:00.00000", 5),
        ("09:15:00.0000000000", 5),
        ("9:15:00.000000", 5),
        (" 9:15:00.000000", 5),
        ("09:15:00.000000 ", 5),
        ("09:15:00:000000", 5),
        ("24:00:00.00000x", 5),
        ("-1:15:00.000000", 5),
    ];
    for (time, number) in cases {
        for line in [8, 9] {
            each(line, &[(&format!("03/02/2024,{time}"), number, 2)]);
        }
    }
    each(8, &[("00/02/2024,x", 6, 1), ("x,x", 5, 1)]);
}

/// Both dates and the pre-trigger time.
fn pre_trigger(first: &str, trigger: &str) -> (i64, i64) {
    let places = shown(&with(&[(8, first), (9, trigger)]));
    (places[26], places[27])
}

/// T7, T8, T9: trigger minus first sample, the seconds rounded down.
#[test]
fn t7_t8_t9_pre_trigger_times() {
    let (first, trigger) = ("05/06/2013,17:38:26.663700", "05/06/2013,17:38:26.687500");
    assert_eq!(pre_trigger(first, trigger), (0, 23_800_000));
    assert_eq!(pre_trigger(trigger, first), (-1, 976_200_000));
    assert_eq!(pre_trigger("28/02/2012,23:59:59.999999", "01/03/2012,00:00:00.000000"), (86_400, 1_000));
    assert_eq!(pre_trigger(first, first), (0, 0));
    assert_eq!(pre_trigger("01/01/2024,00:00:00.000000001", "01/01/2024,00:00:00.000000"), (-1, 999_999_999));
    assert_eq!(pre_trigger("01/01/2024,00:00:00.000000", "01/01/2024,00:00:00.000000001"), (0, 1));
    assert_eq!(
        pre_trigger("01/01/1900,00:00:00.000000", "31/12/9999,23:59:59.999999999"),
        (255_611_289_599, 999_999_999)
    );
    assert_eq!(pre_trigger("31/12/9999,23:59:59.999999999", "01/01/1900,00:00:00.000000"), (-255_611_289_600, 1));
    assert_eq!(pre_trigger("01/01/2024,00:00:01.000000", "01/01/2024,00:00:00.000000"), (-1, 0));
    assert_eq!(pre_trigger("01/01/2024,00:00:00.1234567", "01/01/2024,00:00:00.123456789"), (0, 89));
}

/// Two dates, first sample then trigger.
#[test]
fn both_moments_are_shown() {
    let places = shown(&with(&[(8, "28/02/2012,23:59:58.1234567"), (9, "01/03/2013,01:02:03.000000009")]));
    assert_eq!(places[12..19], [2012, 2, 28, 23, 59, 58, 123_456_700]);
    assert_eq!(places[19..26], [2013, 3, 1, 1, 2, 3, 9]);
}

/// Kind word, 5 to 8 characters, any case; any other 5 to 8 characters are 6.
#[test]
fn kinds() {
    for (text, number) in
        [("ASCII", 0), ("ascii", 0), ("aScIi", 0), ("BINARY", 1), ("binary", 1), ("BiNaRy32", 2), ("binary32", 2)]
    {
        assert_eq!(shown(&with(&[(10, text)]))[28], number, "{text}");
    }
    each(
        10,
        &[
            ("", 5, 1),
            ("ASCI", 5, 1),
            ("binary032", 5, 1),
            (" binary32", 5, 1),
            (" ASCII", 6, 1),
            ("ASCII ", 6, 1),
            ("float32", 6, 1),
            ("FLOAT32", 6, 1),
            ("binary16", 6, 1),
            ("BINARY3", 6, 1),
            ("     ", 6, 1),
            ("ASCII32", 6, 1),
        ],
    );
}

/// Time multiplier, a real above zero, 1 to 32 characters.
#[test]
fn multiplier() {
    let long = format!("{}1", "0".repeat(31));
    let longer = format!("{}1", "0".repeat(32));
    each(
        11,
        &[
            ("1", 0, 0),
            ("1E-999", 0, 0),
            (" 1000", 0, 0),
            (&long, 0, 0),
            ("0", 6, 1),
            ("-1", 6, 1),
            ("0E9", 6, 1),
            ("-0", 6, 1),
            ("", 5, 1),
            (&longer, 5, 1),
            ("1 ", 5, 1),
            ("1.", 5, 1),
        ],
    );
}

/// Time code, local code: hours 0 to 14, minutes 00 to 59, in signed minutes.
#[test]
fn codes() {
    let good = [
        ("0", 0),
        ("+14h59", 899),
        ("-14h59", -899),
        ("-0h30", -30),
        ("0h30", 30),
        (" -0", 0),
        ("     5", 300),
        ("5h30", 330),
        ("-5h30", -330),
        ("+5", 300),
        ("05", 300),
        ("14", 840),
        ("-08", -480),
        (" 10h15", 615),
    ];
    for (text, minutes) in good {
        let places = shown(&with(&[(12, &format!("{text},0"))]));
        assert_eq!(places[29..32], [minutes, 0, 0], "{text}");
        let places = shown(&with(&[(12, &format!("0,{text}"))]));
        assert_eq!(places[29..32], [0, 0, minutes], "{text}");
    }
    let bad = [
        ("15", 6),
        ("5h60", 6),
        ("-15", 6),
        ("15h00", 6),
        ("99h99", 6),
        ("005", 5),
        ("5h3", 5),
        ("5H30", 5),
        ("h30", 5),
        ("", 5),
        (" ", 5),
        ("+14h590", 5),
        (" +14h59", 5),
        ("5h300", 5),
        ("5 ", 5),
        ("- 5", 5),
        ("+", 5),
        ("5.5", 5),
        ("X", 5),
        ("xx", 5),
        ("x ", 5),
        ("-x", 5),
        ("      x", 5),
        ("      0", 5),
    ];
    for (text, number) in bad {
        each(12, &[(&format!("{text},0"), number, 1), (&format!("0,{text}"), number, 2)]);
    }
    each(12, &[("x,0", 5, 1), (" x,x", 5, 1), ("15,x5", 6, 1)]);
}

/// The local code may be a small x, leading spaces allowed.
#[test]
fn the_local_code_may_be_x() {
    for text in ["x", " x", "     x"] {
        assert_eq!(shown(&with(&[(12, &format!("-5h30,{text}"))]))[29..32], [-330, 1, 0], "{text}");
    }
}

/// Time quality, one hex digit of 0 to 9, A, B, F in either case; leap second code 0 to 3.
#[test]
fn quality_and_leap_code() {
    for (text, value) in
        [("0", 0), ("1", 1), ("9", 9), ("A", 10), ("a", 10), ("B", 11), ("b", 11), ("F", 15), ("f", 15)]
    {
        assert_eq!(shown(&with(&[(13, &format!("{text},1"))]))[32..34], [value, 1], "{text}");
    }
    for leap in 0..4 {
        assert_eq!(shown(&with(&[(13, &format!("F,{leap}"))]))[32..34], [15, leap]);
    }
    each(
        13,
        &[
            (",0", 5, 1),
            ("00,0", 5, 1),
            (" 0,0", 5, 1),
            (" ,0", 6, 1),
            ("C,0", 6, 1),
            ("d,0", 6, 1),
            ("E,0", 6, 1),
            ("G,0", 6, 1),
            ("0,", 5, 2),
            ("0,00", 5, 2),
            ("0, 0", 5, 2),
            ("0, ", 6, 2),
            ("0,4", 6, 2),
            ("0,-", 6, 2),
            ("c,", 6, 1),
            ("0,A", 6, 2),
        ],
    );
}
