//! Systematic cases of the configuration: each rule, each field, each boundary, each place where the file can end.

use crate::case::{Case, CONFIG_PLACES};
use crate::damage::{at_places, spliced, Damage, BYTES};
use crate::draft::{drafts, Draft, RECORDING};
use crate::rules::{cased, Rule, LIMITS};
use crate::walk::Walk;

/// A configuration with room for all that is shown.
pub fn config(cfg: Vec<u8>) -> Case {
    Case::Config { cfg, places: CONFIG_PLACES }
}

/// All cases, in an order that stays.
pub fn walk(walk: &mut Walk) {
    for draft in &drafts() {
        let cfg = draft.bytes();
        at_places(walk, &cfg, 0..=cfg.len(), &Damage::every(), config);
        every_field(walk, draft);
        field_counts(walk, draft);
        lines_moved(walk, draft);
        rooms(walk, &cfg);
        endings(walk, draft);
        pairs_of_fields(walk, draft);
        last_lines(walk, draft);
    }
    let draft = &Draft::of(RECORDING);
    totals(walk, draft);
    days(walk, draft);
    times(walk, draft);
    moments(walk, draft);
    limits(walk, draft);
    kinds(walk, draft);
    kinds(walk, &draft.of_1999());
    codes(walk, draft);
    channels(walk);
    rates(walk);
    sizes(walk);
    large(walk);
}

/// Each field replaced by each value about its rule's boundaries.
fn every_field(walk: &mut Walk, draft: &Draft) {
    for (line, fields) in draft.lines.iter().enumerate() {
        for (field, rule) in fields.iter().map(|field| field.rule).enumerate() {
            for value in rule.values() {
                walk.case(|| config(draft.with(line, field, &value).bytes()));
            }
        }
    }
}

/// Each line with a field less and a field more, and emptied.
fn field_counts(walk: &mut Walk, draft: &Draft) {
    for line in 0..draft.lines.len() {
        for field in 0..draft.lines[line].len() {
            walk.case(|| {
                let mut draft = draft.clone();
                draft.lines[line].remove(field);
                config(draft.bytes())
            });
            walk.case(|| {
                let mut draft = draft.clone();
                let copy = draft.lines[line][field].clone();
                draft.lines[line].insert(field, copy);
                config(draft.bytes())
            });
        }
        walk.case(|| {
            let mut draft = draft.clone();
            draft.lines[line].clear();
            config(draft.bytes())
        });
    }
}

/// Lines dropped, doubled, and each swapped with each.
fn lines_moved(walk: &mut Walk, draft: &Draft) {
    for line in 0..draft.lines.len() {
        walk.case(|| {
            let mut draft = draft.clone();
            draft.lines.remove(line);
            config(draft.bytes())
        });
        walk.case(|| {
            let mut draft = draft.clone();
            draft.lines.insert(line, draft.lines[line].clone());
            config(draft.bytes())
        });
        for other in 0..line {
            walk.case(|| {
                let mut draft = draft.clone();
                draft.lines.swap(other, line);
                config(draft.bytes())
            });
        }
    }
}

/// Too few places, enough and more, for a file that is accepted and for some that are not.
fn rooms(walk: &mut Walk, cfg: &[u8]) {
    for places in [0, 1, 2, 33, 34, 35, 36, 37, 64] {
        for length in [0, 1, cfg.len() / 2, cfg.len() - 3, cfg.len() - 2, cfg.len() - 1, cfg.len()] {
            walk.case(|| Case::Config { cfg: cfg[..length].to_vec(), places });
        }
        walk.case(|| Case::Config { cfg: [cfg, b" "].concat(), places });
    }
}

/// What may follow the last line's fields, and what may not; with its fields good and bad.
fn endings(walk: &mut Walk, draft: &Draft) {
    let pieces: [&[u8]; 7] = [b"", b"\r", b"\n", b"\r\n", b"\x1a", b" ", b"0"];
    let line = draft.lines.len() - 1;
    let field = draft.lines[line].len() - 1;
    let [form, value] = draft.lines[line][field].rule.refused();
    for last in ["1", value, form, "33"] {
        for first in pieces {
            for second in pieces {
                for third in pieces {
                    walk.case(|| {
                        let bytes = draft.with(line, field, last.as_bytes()).bytes();
                        config([&bytes[..bytes.len() - 2], first, second, third].concat())
                    });
                }
            }
        }
    }
}

/// A configuration of 1999 with what follows it in 2013, up to every byte of that.
fn last_lines(walk: &mut Walk, draft: &Draft) {
    let of_1999 = draft.of_1999();
    let cfg = of_1999.bytes();
    let more = Draft { lines: draft.lines[of_1999.lines.len()..].to_vec() }.bytes();
    for length in 1..=more.len() {
        walk.case(|| config([&cfg, &more[..length]].concat()));
    }
}

/// Every field's place and two values that are refused there.
fn refused(draft: &Draft) -> Vec<(usize, usize, &'static str)> {
    let mut list = Vec::new();
    for (line, fields) in draft.lines.iter().enumerate() {
        for (field, rule) in fields.iter().map(|field| field.rule).enumerate() {
            list.extend(rule.refused().map(|value| (line, field, value)));
        }
    }
    list
}

/// Two fields bad at once, in every pair of places: the first in the order decides.
fn pairs_of_fields(walk: &mut Walk, draft: &Draft) {
    let list = refused(draft);
    for (k, &(line, field, value)) in list.iter().enumerate() {
        let damaged = draft.with(line, field, value.as_bytes());
        for &(line, field, value) in &list[k + 1..] {
            walk.case(|| config(damaged.with(line, field, value.as_bytes()).bytes()));
        }
    }
}

/// TT, A and D each in many spellings at once.
fn totals(walk: &mut Walk, draft: &Draft) {
    let (line, _) = draft.place(Rule::Total);
    for total in ["", "x", "+2", "0", "1", "2", "3", "000002", "96", "97", "256", "257", "258", "352", "353", "999999"]
    {
        for a in ["A", "1", "1a", "0A", "1A", "2A", " 1A", "95A", "96A", "97A", "256A", "999999A"] {
            for d in ["D", "1", "1d", "0D", "1D", "2D", "01D", "255D", "256D", "257D", "1000D", "999999D", "0000001D"] {
                walk.case(|| {
                    let draft = draft.with(line, 0, total.as_bytes()).with(line, 1, a.as_bytes());
                    config(draft.with(line, 2, d.as_bytes()).bytes())
                });
            }
        }
    }
}

/// Days about the ends of months and years, as the first date and as the trigger's.
fn days(walk: &mut Walk, draft: &Draft) {
    let (line, field) = draft.place(Rule::Date);
    let years =
        [0, 1, 1582, 1899, 1900, 1901, 1904, 1970, 1999, 2000, 2001, 2004, 2023, 2024, 2038, 2100, 2400, 9996, 9999];
    for year in years {
        for month in 0..=13 {
            for day in [0, 1, 2, 27, 28, 29, 30, 31, 32] {
                let date = format!("{day:02}/{month:02}/{year:04}");
                for line in [line, line + 1] {
                    walk.case(|| config(draft.with(line, field, date.as_bytes()).bytes()));
                }
            }
        }
    }
}

/// Times about the ends of hours, minutes and seconds, with fractions of 5 to 10 digits.
fn times(walk: &mut Walk, draft: &Draft) {
    let (line, field) = draft.place(Rule::Time);
    let fractions = [
        "00000",
        "000000",
        "000001",
        "999999",
        "1000000",
        "9999999",
        "00000001",
        "000000001",
        "999999999",
        "0000000000",
    ];
    for hour in ["00", "01", "19", "20", "23", "24", "30", "99"] {
        for minute in ["00", "09", "59", "60", "99"] {
            for second in ["00", "09", "59", "60", "61", "99"] {
                for fraction in fractions {
                    let time = format!("{hour}:{minute}:{second}.{fraction}");
                    for line in [line, line + 1] {
                        walk.case(|| config(draft.with(line, field, time.as_bytes()).bytes()));
                    }
                }
            }
        }
    }
}

/// Each moment of a list as the first sample and each as the trigger.
fn moments(walk: &mut Walk, draft: &Draft) {
    let line = draft.date_line();
    let moments = [
        ("01/01/1900", "00:00:00.000000"),
        ("31/12/9999", "23:59:59.999999999"),
        ("28/02/2012", "23:59:59.999999"),
        ("29/02/2012", "00:00:00.000000"),
        ("01/03/2012", "00:00:00.000000"),
        ("31/12/1999", "23:59:59.999999999"),
        ("01/01/2000", "00:00:00.000000000"),
        ("28/02/1900", "12:00:00.5000000"),
        ("01/03/1900", "12:00:00.4999999"),
        ("03/02/2024", "17:38:26.687500"),
        ("03/02/2024", "17:38:26.663700"),
        ("29/02/2000", "00:00:00.00000001"),
        ("01/03/2100", "11:11:11.111111111"),
        ("31/12/2400", "23:00:00.000000"),
    ];
    for first in moments {
        for trigger in moments {
            walk.case(|| config(draft.dated(line, first.0, first.1).dated(line + 1, trigger.0, trigger.1).bytes()));
        }
    }
}

/// Each limit of a list as min and each as max.
fn limits(walk: &mut Walk, draft: &Draft) {
    let (line, field) = draft.place(Rule::Min);
    for min in LIMITS {
        for max in LIMITS {
            walk.case(|| config(draft.with(line, field, min.as_bytes()).with(line, field + 1, max.as_bytes()).bytes()));
        }
    }
}

/// Each kind's word in every case, and with each byte another.
fn kinds(walk: &mut Walk, draft: &Draft) {
    let (line, field) = draft.place(Rule::Kind);
    for word in ["ascii", "binary", "binary32"] {
        for mask in 0..1 << word.len() {
            walk.case(|| config(draft.of_kind(&cased(word, mask)).bytes()));
        }
        for at in 0..word.len() {
            for byte in 0..=255 {
                walk.case(|| config(draft.with(line, field, &spliced(word.as_bytes(), at, 1, &[byte])).bytes()));
            }
        }
    }
}

/// Time codes put together from spaces, signs, hours and minutes, in both places.
fn codes(walk: &mut Walk, draft: &Draft) {
    let (line, _) = draft.place(Rule::Code);
    let hours = ["", "0", "1", "5", "9", "00", "05", "09", "10", "13", "14", "15", "20", "99", "005", "x"];
    let minutes = ["", "h00", "h01", "h30", "h59", "h60", "h99", "h3", "h300", "H30", "h", "h 5", "h+5", "m30"];
    for spaces in ["", " ", "   "] {
        for sign in ["", "+", "-", "+-"] {
            for hour in hours {
                for minute in minutes {
                    let code = format!("{spaces}{sign}{hour}{minute}");
                    for field in [0, 1] {
                        walk.case(|| config(draft.with(line, field, code.as_bytes()).bytes()));
                    }
                }
            }
        }
    }
}

/// Numbers of channels up to the most, with all their lines.
fn channels(walk: &mut Walk) {
    for a in [0, 1, 2, 9, 10, 95, 96] {
        for d in [0, 1, 2, 15, 16, 17, 99, 100, 255, 256] {
            if a + d > 0 {
                walk.case(|| config(Draft::plain(a, d, &[2]).bytes()));
                walk.case(|| config(Draft::plain(a, d, &[2]).with(1, 0, (a + d + 1).to_string().as_bytes()).bytes()));
                walk.case(|| config(Draft::plain(a, d, &[2]).with(1, 0, (a + d - 1).to_string().as_bytes()).bytes()));
            }
        }
    }
}

/// 0 to 8 rates, last rows that rise, stay, fall and reach the most, at each of them.
fn rates(walk: &mut Walk) {
    for rates in 0..=8usize {
        let rows: Vec<u32> = (1..=rates as u32).map(|k| 10 * k).collect();
        let draft = Draft::plain(1, 1, &rows);
        walk.case(|| config(draft.bytes()));
        for k in 0..rates.max(1) {
            let line = 6 + k;
            for offset in -1..=1 {
                let before = (10 * k as i64 + offset).to_string();
                walk.case(|| config(draft.with(line, 1, before.as_bytes()).bytes()));
            }
            for (rate, last_row) in
                [("1", "999999"), ("0", "1000000"), ("1", "1000001"), ("-1", "5"), ("1", "0"), ("0.0", "70")]
            {
                walk.case(|| config(draft.with(line, 0, rate.as_bytes()).with(line, 1, last_row.as_bytes()).bytes()));
            }
        }
        for count in 0..=9 {
            walk.case(|| config(draft.with(5, 0, count.to_string().as_bytes()).bytes()));
        }
    }
}

/// Files about the most bytes: accepted ones of either edition, and others filled with one byte.
fn sizes(walk: &mut Walk) {
    for size in [65_534, 65_535, 65_536, 65_537, 65_538, 80_000] {
        for cut in 0..=4 {
            let plain = Draft::plain(96, 256, &[2]);
            for draft in [&plain, &plain.of_1999()] {
                walk.case(|| {
                    let mut cfg = draft.clone().filled_up(size);
                    cfg.truncate(size - cut);
                    config(cfg)
                });
            }
        }
        for byte in [0, 13, 26, b' ', b','] {
            walk.case(|| config(vec![byte; size]));
            walk.case(|| {
                let mut cfg = Draft::of(RECORDING).bytes();
                cfg.resize(size, byte);
                config(cfg)
            });
        }
    }
}

/// The most channels: the file ends at every byte, and every byte is damaged in one way.
fn large(walk: &mut Walk) {
    let cfg = Draft::plain(96, 256, &[1, 2, 3, 4, 5, 6, 7, 1_000_000]).bytes();
    let damages = Damage::every();
    for at in 0..=cfg.len() {
        walk.case(|| config(Damage::Cut.at(&cfg, at)));
        walk.case(|| config(damages[at % damages.len()].at(&cfg, at)));
        if at % 7 == 0 {
            walk.case(|| config(Damage::Replace(BYTES[at % BYTES.len()]).at(&cfg, at)));
        }
    }
}
