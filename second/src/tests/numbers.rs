use crate::numbers::*;
use std::cmp::Ordering;

/// A field of at most 32 characters as a real.
fn r(text: &str) -> Real<'_> {
    real(text.as_bytes(), 32).unwrap()
}

/// Numbers may have leading spaces and zeros, which count for length; nothing may trail, and a count has no sign.
#[test]
fn counts() {
    assert_eq!(count(b"2", 6), Some(2));
    assert_eq!(count(b"     2", 6), Some(2));
    assert_eq!(count(b"000002", 6), Some(2));
    assert_eq!(count(b"  0002", 6), Some(2));
    assert_eq!(count(b"      2", 6), None);
    assert_eq!(count(b"9999999999", 10), Some(9_999_999_999));
    assert_eq!(count(b"9999999999999", 13), Some(9_999_999_999_999));
    for bad in ["", " ", "      ", "2 ", "+2", "-0", "-2", "2.0", "1e1", "a", " 2 ", "2 2", "0x1"] {
        assert_eq!(count(bad.as_bytes(), 6), None, "{bad}");
    }
}

/// A sample is an optional sign and digits, leading spaces counted in the length.
#[test]
fn samples() {
    let good = [("5", 5), ("+5", 5), ("-0", 0), (" -5", -5), ("0000000000005", 5), ("-000000000005", -5)];
    for (text, value) in good {
        assert_eq!(sample(text.as_bytes(), 13), Some(value), "{text}");
    }
    for bad in ["", " ", "-", "+", "- 5", "5 ", "5.0", "1E2", "--5", "+-5", "00000000000005", "5-"] {
        assert_eq!(sample(bad.as_bytes(), 13), None, "{bad}");
    }
}

/// A real: ".123", "123E" and "0.123 E4" are none.
#[test]
fn real_forms() {
    let good = [
        "1E2",
        "1.23E4",
        "0.12345E-5",
        "-1.2345E2",
        "+1.50e-03",
        "007",
        " -5",
        "   1",
        "0",
        "-0",
        "1E999",
        "1E-999",
        "1e000",
        "12345678901234567890123456789012",
        "1E+5",
        "0.0",
    ];
    for text in good {
        assert!(real(text.as_bytes(), 32).is_some(), "{text}");
    }
    let bad = [
        "",
        " ",
        ".123",
        "123E",
        "0.123 E4",
        "1.",
        ".5",
        "1E",
        "1E+",
        "1E-",
        "1E0000",
        "5 ",
        "- 5",
        "+-5",
        "1.5.2",
        "1.E5",
        "1E5.0",
        "1E 5",
        "E5",
        "+",
        "-",
        "1,5",
        "0x5",
        "1e5e5",
        "1 5",
        "inf",
        "NaN",
        "1d5",
        "1.-5",
        "123456789012345678901234567890123",
    ];
    for text in bad {
        assert!(real(text.as_bytes(), 32).is_none(), "{text}");
    }
}

/// Zero and above zero are read off the characters.
#[test]
fn zero_and_above_zero() {
    for text in ["1E-999", "0.0000000001", "1", "+5", "000.10", "12345678901234567890123456789012"] {
        assert!(r(text).above_zero() && !r(text).is_zero(), "{text}");
    }
    for text in ["0.0E5", "-0", "0E999", "0", "+0.000", "-0.0e-1"] {
        assert!(r(text).is_zero() && !r(text).above_zero(), "{text}");
    }
    for text in ["-1", "-1E-999", "-0.01"] {
        assert!(!r(text).is_zero() && !r(text).above_zero(), "{text}");
    }
}

/// As exact decimals: 16777217 and 16777216 are not equal.
#[test]
fn reals_compare_as_exact_decimals() {
    let rising = [
        "-1E999",
        "-1E39",
        "-3.4028235E38",
        "-16777217",
        "-16777216",
        "-10",
        "-9.9",
        "-1",
        "-0.1",
        "-1E-999",
        "0",
        "1E-999",
        "2E-999",
        "0.001",
        "0.1",
        "0.11",
        "0.2",
        "1",
        "1.000000000000000000000000001",
        "1.01",
        "9.9",
        "10",
        "99",
        "100",
        "101",
        "16777216",
        "16777217",
        "3.4028235E38",
        "3.40282351E38",
        "1E39",
        "1E999",
    ];
    for (i, x) in rising.iter().enumerate() {
        for (j, y) in rising.iter().enumerate() {
            assert_eq!(r(x).compare(&r(y)), i.cmp(&j), "{x} {y}");
        }
    }
    let equal =
        [("10", "1.0E1"), ("0", "-0"), ("0E999", "0.00"), ("100e-2", "1"), ("-1200", "-1.2E3"), ("0.001E3", "001")];
    for (x, y) in equal {
        assert_eq!(r(x).compare(&r(y)), Ordering::Equal, "{x} {y}");
    }
}

/// The same number written in two ways is one exact decimal.
#[test]
fn reals_compare_like_scaled_integers() {
    // Every pair of small mantissas and exponents, against integers scaled by 10^6.
    let mut all = Vec::new();
    for mantissa in [-120i64, -12, -1, 0, 1, 2, 10, 12, 100, 123] {
        for exponent in -3i32..=3 {
            let scaled = mantissa * 10i64.pow((exponent + 6) as u32);
            all.push((format!("{mantissa}E{exponent}"), scaled));
            let sign = if mantissa < 0 { "-" } else { "" };
            let size = mantissa.abs();
            all.push((format!("{sign}{}.{:02}e{}", size / 100, size % 100, exponent + 2), scaled));
        }
    }
    for (x, value) in &all {
        for (y, other) in &all {
            assert_eq!(r(x).compare(&r(y)), value.cmp(other), "{x} {y}");
        }
    }
}

/// min and max lie within 3.4028235E38 of zero.
#[test]
fn within_the_farthest() {
    for text in ["3.4028235E38", "-3.4028235E38", "34028235E31", "0E999", "3.4028234E38", "-1E38", "1E-999"] {
        assert!(r(text).is_near(), "{text}");
    }
    for text in ["3.40282351E38", "-3.40282351E38", "1E39", "-1E39", "3.4028236E38", "34028236E31", "1E999"] {
        assert!(!r(text).is_near(), "{text}");
    }
}

/// Gregorian days of the years 1900 to 9999, one after the other.
#[test]
fn day_counts_rise_by_one() {
    let mut before = days_before(1899, 12, 31);
    for year in 1900..=9999 {
        for month in 1..=12 {
            for day in 1..=days_of_month(year, month) {
                assert_eq!(days_before(year, month, day), before + 1);
                before += 1;
            }
        }
    }
    assert_eq!(days_before(1970, 1, 1), 719_162);
    assert_eq!(days_before(2000, 3, 1) - days_before(1970, 1, 1), 11_017);
}

/// Gregorian days of a month.
#[test]
fn month_lengths() {
    assert_eq!(days_of_month(1900, 2), 28);
    assert_eq!(days_of_month(2000, 2), 29);
    assert_eq!(days_of_month(2100, 2), 28);
    assert_eq!(days_of_month(2024, 2), 29);
    assert_eq!((1..=12).map(|month| days_of_month(2023, month)).sum::<i64>(), 365);
}

/// dd/mm/yyyy and hh:mm:ss.f with f of 6 to 9 digits, all places filled.
#[test]
fn date_and_time_forms() {
    assert_eq!(date(b"03/02/2024"), Some([3, 2, 2024]));
    assert_eq!(date(b"99/99/0000"), Some([99, 99, 0]));
    for bad in [
        "",
        "3/02/2024",
        "31/13/20x4",
        "03-02-2024",
        "03/02/24",
        " 3/02/2024",
        "03/02/2024 ",
        "03/02/02024",
        "03/2/20245",
    ] {
        assert_eq!(date(bad.as_bytes()), None, "{bad}");
    }
    assert_eq!(time(b"09:15:00.001000"), Some([9, 15, 0, 1_000_000]));
    assert_eq!(time(b"09:15:00.123456789"), Some([9, 15, 0, 123_456_789]));
    assert_eq!(time(b"09:15:00.1234567"), Some([9, 15, 0, 123_456_700]));
    assert_eq!(time(b"99:99:99.00000001"), Some([99, 99, 99, 10]));
    for bad in [
        "",
        "09:15:00",
        "09:15:00.00000",
        "09:15:00.0000000000",
        "9:15:00.0000000",
        "09:15:00,000000",
        "09.15:00.000000",
        "09:15.00.000000",
        " 9:15:00.000000",
        "09:15:00.00000 ",
        "09:15:00.+00000",
        "09:15:0x.000000",
    ] {
        assert_eq!(time(bad.as_bytes()), None, "{bad}");
    }
}

/// Optional sign, hours in one or two digits, then nothing or "h" and two digits; or a small x.
#[test]
fn code_forms() {
    let good = [
        ("0", false, 0, 0),
        ("+14h59", false, 14, 59),
        ("-0h30", true, 0, 30),
        (" -0", true, 0, 0),
        ("15", false, 15, 0),
        ("5h60", false, 5, 60),
        ("     8", false, 8, 0),
        ("08", false, 8, 0),
        ("-08h00", true, 8, 0),
        ("99h99", false, 99, 99),
    ];
    for (text, minus, hours, minutes) in good {
        assert_eq!(code(text.as_bytes()), Some(Code { minus, hours, minutes }), "{text}");
    }
    for bad in [
        "", " ", "005", "5h3", "5H30", "h30", "+", "-h30", "5h", "5h300", "5 h30", "- 5", "5 ", "+14h590", "      5",
        "x", "5.5", "5:30",
    ] {
        assert_eq!(code(bad.as_bytes()), None, "{bad}");
    }
    assert!(is_x(b"x") && is_x(b"     x"));
    for bad in ["X", "x ", "xx", "-x", "      x", "", " "] {
        assert!(!is_x(bad.as_bytes()), "{bad}");
    }
}
