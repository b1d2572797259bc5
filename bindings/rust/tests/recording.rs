//! Two recordings in their three kinds, from the repository's examples, one of them with missing samples, one of the edition of 1999 in its two, and one without a date: read,
//! checked, shown, written and changed.

use zagalume::{Config, Edition, Kind, LastLines, Layout, Moment, PreTrigger, Row, Sample};

const ONE: [(&[u8], &[u8], Kind); 3] = [
    (include_bytes!("../../../examples/one.cfg"), include_bytes!("../../../examples/one.dat"), Kind::Ascii),
    (
        include_bytes!("../../../examples/one-binary.cfg"),
        include_bytes!("../../../examples/one-binary.dat"),
        Kind::Binary,
    ),
    (
        include_bytes!("../../../examples/one-binary32.cfg"),
        include_bytes!("../../../examples/one-binary32.dat"),
        Kind::Binary32,
    ),
];

/// The recording with missing samples.
const MISSING: [(&[u8], &[u8], Kind); 3] = [
    (include_bytes!("../../../examples/missing.cfg"), include_bytes!("../../../examples/missing.dat"), Kind::Ascii),
    (
        include_bytes!("../../../examples/missing-binary.cfg"),
        include_bytes!("../../../examples/missing-binary.dat"),
        Kind::Binary,
    ),
    (
        include_bytes!("../../../examples/missing-binary32.cfg"),
        include_bytes!("../../../examples/missing-binary32.dat"),
        Kind::Binary32,
    ),
];

/// The first recording, of the edition of 1999.
const OLDER: [(&[u8], &[u8], Kind); 2] = [
    (include_bytes!("../../../examples/one-1999.cfg"), include_bytes!("../../../examples/one-1999.dat"), Kind::Ascii),
    (
        include_bytes!("../../../examples/one-1999-binary.cfg"),
        include_bytes!("../../../examples/one-1999-binary.dat"),
        Kind::Binary,
    ),
];

/// The first recording, by a recorder without a clock.
const NO_CLOCK: &[u8] = include_bytes!("../../../examples/no-clock.cfg");

/// A line that says that there is no date.
const NO_DATE: &str = "00/00/0000,00:00:00.000000";

fn layout(kind: Kind) -> Layout {
    Layout { analogs: 1, statuses: 1, rows: 2, kind, edition: Edition::Year2013 }
}

fn older_layout(kind: Kind) -> Layout {
    Layout { edition: Edition::Year1999, ..layout(kind) }
}

fn rows() -> [Row; 2] {
    [
        Row { time: 0, samples: vec![Sample::Is(-3)], statuses: vec![false] },
        Row { time: 1000, samples: vec![Sample::Is(300)], statuses: vec![true] },
    ]
}

fn missing_layout(kind: Kind) -> Layout {
    Layout { analogs: 2, statuses: 1, rows: 4, kind, edition: Edition::Year2013 }
}

fn missing_rows() -> [Row; 4] {
    let row = |time, samples: [Sample; 2], on| Row { time, samples: samples.to_vec(), statuses: vec![on] };
    [
        row(0, [Sample::Missing, Sample::Is(-3)], false),
        row(1000, [Sample::Is(300), Sample::Missing], true),
        row(2000, [Sample::Is(-32_767), Sample::Is(32_767)], true),
        row(3000, [Sample::Missing, Sample::Missing], false),
    ]
}

#[test]
fn a_configuration_shows_every_field() {
    let moment = |nanosecond| Moment { year: 2024, month: 2, day: 3, hour: 9, minute: 15, second: 0, nanosecond };
    for (cfg, _, kind) in ONE {
        let config = zagalume::read_config(cfg).unwrap();
        assert_eq!(config.layout(), layout(kind));
        assert_eq!((config.rates, config.last_rows), (1, [2, 0, 0, 0, 0, 0, 0, 0]));
        assert_eq!((config.first_sample, config.trigger), (Some(moment(0)), Some(moment(1_000_000))));
        assert_eq!(config.pre_trigger, Some(PreTrigger { seconds: 0, nanoseconds: 1_000_000 }));
        let last = LastLines { time_code: 0, local_code: Some(0), quality: 0, leap_code: 3 };
        assert_eq!((config.edition, config.last), (Edition::Year2013, Some(last)));
    }
}

#[test]
fn codes_quality_and_a_trigger_before_the_first_sample() {
    let text = String::from_utf8(ONE[0].0.to_vec()).unwrap();
    let swapped = text.replace("00.000000", "00.5").replace("00.001000", "00.000000").replace("00.5", "00.001000");
    let cfg = swapped.replace("\r\n0,0\r\n0,3", "\r\n-5h30,x\r\nF,1");
    let config = zagalume::read_config(cfg.as_bytes()).unwrap();
    assert_eq!(config.pre_trigger, Some(PreTrigger { seconds: -1, nanoseconds: 999_000_000 }));
    assert_eq!(config.last, Some(LastLines { time_code: -330, local_code: None, quality: 15, leap_code: 1 }));
}

/// The first recording, of either edition, with these two date lines.
fn dated(cfg: &[u8], first_sample: &str, trigger: &str) -> Vec<u8> {
    let text = String::from_utf8(cfg.to_vec()).unwrap();
    let text = text.replace("03/02/2024,09:15:00.000000", first_sample);
    text.replace("03/02/2024,09:15:00.001000", trigger).into_bytes()
}

#[test]
fn the_example_without_a_clock() {
    let config = zagalume::read_config(NO_CLOCK).unwrap();
    assert_eq!((config.first_sample, config.trigger, config.pre_trigger), (None, None, None));
    let shown = zagalume::read_config(ONE[0].0).unwrap();
    let last = shown.last.map(|lines| LastLines { quality: 15, ..lines });
    assert_eq!(config, Config { first_sample: None, trigger: None, pre_trigger: None, last, ..shown });
    let dat = include_bytes!("../../../examples/no-clock.dat");
    zagalume::check(config.layout(), dat).unwrap();
    for (n, row) in (1..).zip(rows()) {
        assert_eq!(zagalume::row(config.layout(), dat, n).unwrap(), row);
    }
}

#[test]
fn either_date_may_be_none_and_the_pre_trigger_time_is_then_unknown() {
    let (first_sample, trigger) = ("03/02/2024,09:15:00.000000", "03/02/2024,09:15:00.001000");
    for cfg in [ONE[0].0, OLDER[0].0] {
        let shown = zagalume::read_config(cfg).unwrap();
        let read = |first: &str, second: &str| zagalume::read_config(&dated(cfg, first, second)).unwrap();
        for zeros in 6..=9 {
            let none = format!("00/00/0000,00:00:00.{}", "0".repeat(zeros));
            let neither = Config { first_sample: None, trigger: None, pre_trigger: None, ..shown };
            assert_eq!(read(&none, NO_DATE), neither);
            assert_eq!(read(NO_DATE, &none), neither);
            assert_eq!(read(&none, trigger), Config { first_sample: None, pre_trigger: None, ..shown });
            assert_eq!(read(first_sample, &none), Config { trigger: None, pre_trigger: None, ..shown });
        }
    }
}

#[test]
fn midnight_is_a_date() {
    let midnight = Moment { year: 1900, month: 1, day: 1, hour: 0, minute: 0, second: 0, nanosecond: 0 };
    let line = "01/01/1900,00:00:00.000000000";
    let config = zagalume::read_config(&dated(ONE[0].0, line, line)).unwrap();
    assert_eq!((config.first_sample, config.trigger), (Some(midnight), Some(midnight)));
    assert_eq!(config.pre_trigger, Some(PreTrigger { seconds: 0, nanoseconds: 0 }));
}

#[test]
fn no_date_is_written_as_it_stands() {
    for (cfg, new_cfg, new_kind) in [(ONE[0].0, ONE[2].0, Kind::Binary32), (OLDER[0].0, OLDER[1].0, Kind::Binary)] {
        for trigger in ["00/00/0000,00:00:00.000000000", "03/02/2024,09:15:00.001000"] {
            let written = zagalume::write_config(&dated(cfg, NO_DATE, trigger), new_kind).unwrap();
            assert_eq!(written, dated(new_cfg, NO_DATE, trigger));
            assert_eq!(zagalume::write_config(&written, Kind::Ascii).unwrap(), dated(cfg, NO_DATE, trigger));
        }
    }
    assert_eq!(zagalume::write_config(NO_CLOCK, Kind::Ascii).unwrap(), NO_CLOCK);
}

#[test]
fn what_the_edition_of_1999_lacks_is_absent() {
    for ((cfg, dat, kind), (newer, _, _)) in OLDER.into_iter().zip(ONE) {
        let config = zagalume::read_config(cfg).unwrap();
        let shown = zagalume::read_config(newer).unwrap();
        assert_eq!(config, Config { edition: Edition::Year1999, last: None, ..shown });
        assert_eq!(config.layout(), older_layout(kind));
        zagalume::check(config.layout(), dat).unwrap();
        for (n, row) in (1..).zip(rows()) {
            assert_eq!(zagalume::row(config.layout(), dat, n).unwrap(), row);
        }
        assert_eq!(zagalume::read_config(&cfg[..cfg.len() - 2]), Ok(config));
    }
}

#[test]
fn a_recording_of_1999_is_changed_within_its_edition() {
    for (cfg, dat, kind) in OLDER {
        for (new_cfg, new_dat, new_kind) in OLDER {
            assert_eq!(zagalume::write_config(cfg, new_kind).unwrap(), new_cfg);
            assert_eq!(zagalume::bytes_needed(older_layout(kind), dat, new_kind), Ok(new_dat.len()));
            assert_eq!(zagalume::change(older_layout(kind), dat, new_kind).unwrap(), new_dat);
        }
    }
}

#[test]
fn the_mark_of_a_missing_sample_in_1999() {
    let older = Layout { rows: 1, ..older_layout(Kind::Ascii) };
    let newer = Layout { edition: Edition::Year2013, ..older };
    let samples = |layout, file: &[u8]| zagalume::row(layout, file, 1).unwrap().samples;
    for field in ["99999", "+99999", "  99999", "0000000099999"] {
        let text = format!("1,0,{field},0\r\n");
        let text = text.as_bytes();
        assert_eq!(samples(newer, text), [Sample::Is(99_999)]);
        assert_eq!(samples(older, text), [Sample::Missing]);
        let plain = zagalume::change(older, text, Kind::Ascii).unwrap();
        assert_eq!(plain, b"1,0,99999,0\r\n\x1A\r\n");
        let binary = zagalume::change(older, text, Kind::Binary).unwrap();
        assert_eq!(binary, [1, 0, 0, 0, 0, 0, 0, 0, 0, 0x80, 0, 0]);
        let back = zagalume::change(Layout { kind: Kind::Binary, ..older }, &binary, Kind::Ascii);
        assert_eq!(back.unwrap(), plain);
    }
    let row = Row { time: 5, samples: vec![Sample::Missing], statuses: vec![true] };
    assert_eq!(zagalume::write_row(older, 1, &row).unwrap(), b"1,5,99999,1\r\n");
    assert_eq!(zagalume::write_row(newer, 1, &row).unwrap(), b"1,5,,1\r\n");
}

#[test]
fn the_example_with_a_missing_sample_in_1999() {
    let layout = zagalume::read_config(include_bytes!("../../../examples/missing-1999.cfg")).unwrap().layout();
    let row = zagalume::row(layout, include_bytes!("../../../examples/missing-1999.dat"), 1).unwrap();
    assert_eq!(row, Row { time: 0, samples: vec![Sample::Missing], statuses: vec![false] });
}

#[test]
fn each_kind_is_checked_and_shown() {
    for (_, dat, kind) in ONE {
        zagalume::check(layout(kind), dat).unwrap();
        for (n, row) in (1..).zip(rows()) {
            assert_eq!(zagalume::row(layout(kind), dat, n).unwrap(), row);
        }
    }
}

#[test]
fn rows_in_a_row_are_the_file() {
    for (_, dat, kind) in ONE {
        let mut bytes = Vec::new();
        for (n, row) in (1..).zip(rows()) {
            bytes.extend(zagalume::write_row(layout(kind), n, &row).unwrap());
        }
        if kind == Kind::Ascii {
            bytes.extend([0x1A, 0x0D, 0x0A]);
        }
        assert_eq!(bytes, dat);
    }
}

#[test]
fn each_kind_is_changed_to_each() {
    for (_, dat, kind) in ONE {
        for (_, new_dat, new_kind) in ONE {
            assert_eq!(zagalume::bytes_needed(layout(kind), dat, new_kind), Ok(new_dat.len()));
            assert_eq!(zagalume::change(layout(kind), dat, new_kind).unwrap(), new_dat);
        }
    }
}

#[test]
fn a_missing_sample_is_shown_and_written_in_each_kind() {
    for (cfg, dat, kind) in MISSING {
        assert_eq!(zagalume::read_config(cfg).unwrap().layout(), missing_layout(kind));
        zagalume::check(missing_layout(kind), dat).unwrap();
        let mut bytes = Vec::new();
        for (n, row) in (1..).zip(missing_rows()) {
            assert_eq!(zagalume::row(missing_layout(kind), dat, n).as_ref(), Ok(&row));
            bytes.extend(zagalume::write_row(missing_layout(kind), n, &row).unwrap());
        }
        if kind == Kind::Ascii {
            bytes.extend([0x1A, 0x0D, 0x0A]);
        }
        assert_eq!(bytes, dat);
    }
}

#[test]
fn a_missing_sample_stays_missing() {
    for (cfg, dat, kind) in MISSING {
        for (new_cfg, new_dat, new_kind) in MISSING {
            assert_eq!(zagalume::write_config(cfg, new_kind).unwrap(), new_cfg);
            assert_eq!(zagalume::bytes_needed(missing_layout(kind), dat, new_kind), Ok(new_dat.len()));
            assert_eq!(zagalume::change(missing_layout(kind), dat, new_kind).unwrap(), new_dat);
        }
    }
}

#[test]
fn a_sample_and_its_place() {
    for (sample, place, printed) in [
        (Sample::Missing, i64::MIN, "x"),
        (Sample::Is(0), 0, "0"),
        (Sample::Is(i32::MAX), 2_147_483_647, "2147483647"),
        (Sample::Is(-i32::MAX), -2_147_483_647, "-2147483647"),
    ] {
        assert_eq!((sample.place(), sample.to_string()), (place, printed.to_string()));
        assert_eq!(Sample::of_place(place), Some(sample));
    }
    for place in [i64::MIN + 1, -2_147_483_649, -2_147_483_648, 2_147_483_648, i64::MAX] {
        assert_eq!(Sample::of_place(place), None);
    }
    assert_eq!(format!("{:>3}|{:>3}", Sample::Missing, Sample::Is(7)), "  x|  7");
}

#[test]
fn places_of_missing_samples() {
    for (_, dat, kind) in MISSING {
        let mut places = [7; 5];
        assert_eq!(zagalume::row_into(missing_layout(kind), dat, 1, &mut places), Ok(4));
        assert_eq!(places, [0, i64::MIN, -3, 0, 7]);
        let mut bytes = [0; 32];
        let length = zagalume::write_row_into(missing_layout(kind), 1, &places, &mut bytes).unwrap();
        assert_eq!(bytes[..length], dat[..length]);
        assert_eq!(length, [11, 14, 18][kind.number() as usize]);
    }
}

#[test]
fn each_configuration_is_written_for_each_kind() {
    for (cfg, _, _) in ONE {
        for (new_cfg, _, new_kind) in ONE {
            assert_eq!(zagalume::write_config(cfg, new_kind).unwrap(), new_cfg);
            assert_eq!(zagalume::write_config(new_cfg, new_kind).unwrap(), new_cfg);
        }
    }
}

#[test]
fn a_written_configuration_shows_the_same_but_for_the_kind() {
    let text = |counts, frequency, word, codes| {
        let text = String::from_utf8(ONE[0].0.to_vec()).unwrap().replace("2,1A,1D", counts);
        text.replace("\n50\r", frequency).replace("ASCII", word).replace("\n0,0\r", codes)
    };
    let spaced = text(" 02, 1A, 1D", "\n  50\r", "ascii", "\n -1,  x\r");
    let written = zagalume::write_config(spaced.trim_end().as_bytes(), Kind::Binary32).unwrap();
    let bare = text("02,1A,1D", "\n50\r", "binary32", "\n-1,x\r");
    assert_eq!(String::from_utf8(written.clone()).unwrap(), bare);
    let config = zagalume::read_config(spaced.as_bytes()).unwrap();
    assert_eq!(zagalume::read_config(&written), Ok(Config { kind: Kind::Binary32, ..config }));
}

#[test]
fn what_is_lent_past_the_answer_stays_as_it_was() {
    let (cfg, dat, kind) = ONE[0];
    let mut places = [7; 5];
    assert_eq!(zagalume::row_into(layout(kind), dat, 2, &mut places), Ok(3));
    assert_eq!(places, [1000, 300, 1, 7, 7]);
    let mut bytes = [7; 20];
    assert_eq!(zagalume::write_row_into(layout(kind), 1, &places, &mut bytes), Ok(14));
    assert_eq!(&bytes, b"1,1000,300,1\r\n\x07\x07\x07\x07\x07\x07");
    let mut bytes = [7; 26];
    assert_eq!(zagalume::change_into(layout(kind), dat, Kind::Binary, &mut bytes), Ok(24));
    assert_eq!((&bytes[..24], &bytes[24..]), (ONE[1].1, &[7, 7][..]));
    let mut bytes = [7; 170];
    assert_eq!(zagalume::write_config_into(cfg, Kind::Binary, &mut bytes), Ok(168));
    assert_eq!((&bytes[..168], &bytes[168..]), (ONE[1].0, &[7, 7][..]));
}

#[test]
fn the_largest_row_of_each_kind() {
    for kind in [Kind::Ascii, Kind::Binary, Kind::Binary32] {
        let largest = Layout { analogs: 96, statuses: 256, rows: 1, ..layout(kind) };
        let row = Row { time: u32::MAX, samples: vec![Sample::Is(-32_767); 96], statuses: vec![true; 256] };
        let bytes = zagalume::write_row(largest, 1, &row).unwrap();
        assert_eq!(bytes.len(), [1 + 11 + 96 * 7 + 256 * 2 + 2, 232, 424][kind.number() as usize]);
        assert_eq!(zagalume::row(largest, &bytes, 1).unwrap(), row);
        let row = Row { samples: vec![Sample::Missing; 96], ..row };
        let bytes = zagalume::write_row(largest, 1, &row).unwrap();
        assert_eq!(bytes.len(), [1 + 11 + 96 + 256 * 2 + 2, 232, 424][kind.number() as usize]);
        assert_eq!(zagalume::row(largest, &bytes, 1).unwrap(), row);
    }
}

#[test]
fn kinds_by_number_and_by_word() {
    for (_, _, kind) in ONE {
        assert_eq!(Kind::of_number(kind.number()), Some(kind));
        assert_eq!(Kind::of_word(&kind.to_string()), Some(kind));
    }
    assert_eq!(Kind::of_number(3), None);
}

#[test]
fn editions_by_year_and_their_kinds() {
    for edition in [Edition::Year2013, Edition::Year1999] {
        assert_eq!(Edition::of_year(edition.year()), Some(edition));
        assert_eq!(edition.to_string(), edition.year().to_string());
        assert!(edition.has(Kind::Ascii) && edition.has(Kind::Binary));
        assert_eq!(edition.has(Kind::Binary32), edition == Edition::Year2013);
    }
    for year in [0, 1991, 2000, 2014, u32::MAX] {
        assert_eq!(Edition::of_year(year), None);
    }
}
