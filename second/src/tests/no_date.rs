//! Dates of zeros, as a recorder without a clock fills them in.

use super::config::{ask, shown};
use super::editions::n_with;
use super::write_config::written;
use super::{join, no, with, yes, S, T1};
use crate::{list, NONE};
use std::ops::Range;

/// A date of zeros with a time of zeros, of 6 places.
const NO_DATE: &str = "00/00/0000,00:00:00.000000";

/// Times of zeros, of each number of places that a time may have.
const ZERO_TIMES: [&str; 4] = ["00:00:00.000000", "00:00:00.0000000", "00:00:00.00000000", "00:00:00.000000000"];

/// The places of the first sample, of the trigger and of the pre-trigger time.
const FIRST: Range<usize> = 12..19;
const TRIGGER: Range<usize> = 19..26;
const PRE_TRIGGER: Range<usize> = 26..28;

/// What a configuration shows that shows as the recording does, but for these places, of which there are none.
fn shown_without(none: &[Range<usize>]) -> [i64; 35] {
    let mut want = shown(&join(&S));
    for places in none {
        want[places.clone()].fill(NONE);
    }
    want
}

/// The date line of the recording, 8 or 9, with another date.
fn dated(line: usize, date: &str) -> String {
    format!("{date},{}", &S[line - 1][11..])
}

/// 1: neither line has a date, and the pre-trigger time is unknown.
#[test]
fn no_date_1_neither() {
    let places = shown(&with(&[(8, NO_DATE), (9, NO_DATE)]));
    assert_eq!(places[12..28], [NONE; 16]);
    assert_eq!(places, shown_without(&[FIRST, TRIGGER, PRE_TRIGGER]));
}

/// 2: the first sample has none, of 9 places; the trigger is shown.
#[test]
fn no_date_2_first_sample() {
    let places = shown(&with(&[(8, "00/00/0000,00:00:00.000000000")]));
    assert_eq!(places, shown_without(&[FIRST, PRE_TRIGGER]));
    assert_eq!(places[TRIGGER], [2024, 2, 3, 9, 15, 0, 1_000_000]);
}

/// 3: the trigger has none, of 7 places; the first sample is shown.
#[test]
fn no_date_3_trigger() {
    let places = shown(&with(&[(9, "00/00/0000,00:00:00.0000000")]));
    assert_eq!(places, shown_without(&[TRIGGER, PRE_TRIGGER]));
    assert_eq!(places[FIRST], [2024, 2, 3, 9, 15, 0, 0]);
}

/// 4: a date of zeros with any other time field is 6 at the date, at either line.
#[test]
fn no_date_4_other_times() {
    let times = [
        "00:00:00.00000",
        "00:00:00.0000000000",
        "00:00:00.000001",
        "00:00:00.000000001",
        "00:00:00.100000",
        "00:00:01.000000",
        "00:10:00.000000",
        "10:00:00.000000",
        "24:00:00.000000",
        "99:99:99.999999",
        "x",
        "",
        " ",
        "::.",
        "00:00:00",
        "00:00:00.",
        "0:0:0.000000",
        "000000.000000",
        "00-00-00.000000",
        "00:00:00:000000",
        "00:00:00.00000x",
        "00:00:00.000000 ",
        " 00:00:00.000000",
        "-0:00:00.000000",
        "00:00:00.+00000",
        "09:15:00.000000",
    ];
    for time in times {
        for line in [8, 9] {
            let text = format!("00/00/0000,{time}");
            assert_eq!(ask(&with(&[(line, &text)])), no(6, line as u32, 1), "line {line}: {text:?}");
            assert_eq!(ask(&n_with(&[(line, &text)])), no(6, line as u32, 1), "line {line}: {text:?}");
        }
    }
}

/// 5: a date of zeros in part is 6, with a time of zeros too, and whatever the time is.
#[test]
fn no_date_5_zeros_in_part() {
    let dates = [
        "00/00/2024",
        "00/01/2024",
        "01/00/2024",
        "01/01/0000",
        "00/00/0001",
        "01/00/0000",
        "00/01/0000",
        "00/00/1900",
    ];
    for date in dates {
        for line in [8, 9] {
            assert_eq!(ask(&with(&[(line, &dated(line, date))])), no(6, line as u32, 1), "line {line}: {date}");
            for time in ZERO_TIMES.iter().chain(&["24:00:00.000000", "x", ""]) {
                let text = format!("{date},{time}");
                assert_eq!(ask(&with(&[(line, &text)])), no(6, line as u32, 1), "line {line}: {text:?}");
            }
        }
    }
}

/// 6: a date of another form is 5, zeros or not.
#[test]
fn no_date_6_other_forms() {
    let dates = [
        "0/0/0000",
        "00/00/000",
        "00/00/00000",
        "000/00/0000",
        "0000/00/00",
        "00-00-0000",
        "00/00/0000 ",
        " 00/00/0000",
        "0 /00/0000",
        "00/00/+000",
        "-0/00/0000",
        "  /  /    ",
        "0000000000",
        "0",
    ];
    for date in dates {
        for line in [8, 9] {
            let text = format!("{date},00:00:00.000000");
            assert_eq!(ask(&with(&[(line, &text)])), no(5, line as u32, 1), "line {line}: {text:?}");
        }
    }
}

/// 7: bare separators are 5; the number of fields comes before the fields.
#[test]
fn no_date_7_bare_separators_and_fields() {
    for line in [8, 9] {
        for text in [",", "//,::.", "//,00:00:00.000000", ",00:00:00.000000"] {
            assert_eq!(ask(&with(&[(line, text)])), no(5, line as u32, 1), "line {line}: {text:?}");
        }
        for text in ["", "00/00/0000", "00/00/0000,00:00:00.000000,", "00/00/0000,,", "00/00/0000,00:00:00,000000"] {
            assert_eq!(ask(&with(&[(line, text)])), no(4, line as u32, 0), "line {line}: {text:?}");
        }
    }
}

/// 8: a true date with a time of zeros is midnight.
#[test]
fn no_date_8_midnight() {
    for time in ZERO_TIMES {
        let places = shown(&with(&[(8, &format!("03/02/2024,{time}"))]));
        assert_eq!(places[FIRST], [2024, 2, 3, 0, 0, 0, 0]);
        assert_eq!(places[PRE_TRIGGER], [33_300, 1_000_000]);
    }
    let places = shown(&with(&[(9, "03/02/2024,00:00:00.000000")]));
    assert_eq!(places[TRIGGER], [2024, 2, 3, 0, 0, 0, 0]);
    assert_eq!(places[PRE_TRIGGER], [-33_300, 0]);
}

/// 9: the first line that is wrong decides.
#[test]
fn no_date_9_the_first_line_decides() {
    let bad = "00/00/0000,00:00:00.00000";
    let half = "00/00/2024,00:00:00.000000";
    assert_eq!(ask(&with(&[(8, bad), (9, half)])), no(6, 8, 1));
    assert_eq!(ask(&with(&[(8, NO_DATE), (9, half)])), no(6, 9, 1));
    assert_eq!(ask(&with(&[(8, bad), (9, ",")])), no(6, 8, 1));
    assert_eq!(ask(&with(&[(8, bad), (9, "\t")])), no(6, 8, 1));
    assert_eq!(ask(&with(&[(8, bad), (10, "bin"), (13, "C,4")])), no(6, 8, 1));
    assert_eq!(ask(&with(&[(7, "0,2"), (8, bad)])), no(6, 7, 1));
    assert_eq!(ask(&with(&[(8, NO_DATE), (9, bad), (10, "bin")])), no(6, 9, 1));
    assert_eq!(ask(&with(&[(8, NO_DATE), (9, NO_DATE), (10, "bin")])), no(5, 10, 1));
    assert_eq!(ask(&join(&[&S[..7], &[bad]].concat())), no(6, 8, 1));
    assert_eq!(ask(&join(&[&S[..7], &[NO_DATE]].concat())), no(2, 9, 0));
}

/// 10: so in the edition of 1999.
#[test]
fn no_date_10_of_1999() {
    let mut want = shown_without(&[FIRST, TRIGGER, PRE_TRIGGER]);
    want[29..34].fill(NONE);
    want[34] = 1999;
    assert_eq!(shown(&n_with(&[(8, NO_DATE), (9, NO_DATE)])), want);
    want[TRIGGER].copy_from_slice(&[2024, 2, 3, 9, 15, 0, 1_000_000]);
    assert_eq!(shown(&n_with(&[(8, NO_DATE)])), want);
    assert_eq!(ask(&n_with(&[(9, "00/00/2024,00:00:00.000000")])), no(6, 9, 1));
}

/// 11: both lines are written as they stand.
#[test]
fn no_date_11_written() {
    for first in ZERO_TIMES {
        for trigger in ZERO_TIMES {
            let (first, trigger) = (format!("00/00/0000,{first}"), format!("00/00/0000,{trigger}"));
            let lines = [(8, &first[..]), (9, &trigger[..])];
            for (kind, word) in (0..).zip(["ASCII", "binary", "binary32"]) {
                let want = with(&[lines[0], lines[1], (10, word)]);
                assert_eq!(written(&with(&lines), kind), Ok(want));
            }
            assert_eq!(written(&n_with(&lines), 1), Ok(n_with(&[lines[0], lines[1], (10, "binary")])));
        }
    }
    assert_eq!(written(&with(&[(8, "00/00/0000,00:00:00.00000")]), 3), Err(no(6, 8, 1)));
    assert_eq!(written(&with(&[(8, NO_DATE)]), 3), Err(no(10, 0, 0)));
}

/// 12: T7, T8 and T9 are as they were, with a date of zeros in place of either line too.
#[test]
fn no_date_12_pre_trigger_times() {
    let (first, trigger) = ("05/06/2013,17:38:26.663700", "05/06/2013,17:38:26.687500");
    let known = [
        (first, trigger, [0, 23_800_000]),
        (trigger, first, [-1, 976_200_000]),
        ("28/02/2012,23:59:59.999999", "01/03/2012,00:00:00.000000", [86_400, 1_000]),
    ];
    for (first, trigger, want) in known {
        assert_eq!(shown(&with(&[(8, first), (9, trigger)]))[PRE_TRIGGER], want);
        assert_eq!(shown(&with(&[(8, NO_DATE), (9, trigger)]))[PRE_TRIGGER], [NONE; 2]);
        assert_eq!(shown(&with(&[(8, first), (9, NO_DATE)]))[PRE_TRIGGER], [NONE; 2]);
    }
}

/// 13: each number of zeros at either line and at both; how many there are is not shown.
#[test]
fn no_date_13_each_number_of_zeros() {
    for time in ZERO_TIMES {
        let zeros = format!("00/00/0000,{time}");
        assert_eq!(shown(&with(&[(8, &zeros)])), shown_without(&[FIRST, PRE_TRIGGER]));
        assert_eq!(shown(&with(&[(9, &zeros)])), shown_without(&[TRIGGER, PRE_TRIGGER]));
        for other in ZERO_TIMES {
            let places = shown(&with(&[(8, &zeros), (9, &format!("00/00/0000,{other}"))]));
            assert_eq!(places, shown_without(&[FIRST, TRIGGER, PRE_TRIGGER]));
        }
    }
}

/// 14: a date of zeros but for one digit is 6, a time of zeros but for one is 6 at the date.
#[test]
fn no_date_14_one_digit() {
    for at in (0..NO_DATE.len()).filter(|&at| NO_DATE.as_bytes()[at] == b'0') {
        for digit in '1'..='9' {
            let mut text = String::from(NO_DATE);
            text.replace_range(at..=at, &digit.to_string());
            for line in [8, 9] {
                assert_eq!(ask(&with(&[(line, &text)])), no(6, line as u32, 1), "line {line}: {text:?}");
            }
        }
    }
}

/// 15: 17 is still the last of all, and the listing, which has no date, is as it was.
#[test]
fn no_date_15_room_and_listing() {
    let cfg = with(&[(8, NO_DATE), (9, NO_DATE)]);
    let mut short = [5; 34];
    assert_eq!(crate::config(&cfg, &mut short), no(17, 0, 0));
    assert_eq!(short, [5; 34]);
    assert_eq!(crate::config(&cfg, &mut [5; 35]), yes(0));
    assert_eq!(list(&cfg, T1), list(&join(&S), T1));
    assert_eq!(list(&with(&[(9, "00/00/0000,")]), T1), "no cfg 6 9 1\n");
}
