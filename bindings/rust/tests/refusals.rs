//! Every refusal comes back with its number and place, and leaves what was lent as it was.

use std::{collections::BTreeSet, fs, path::Path};
use zagalume::{refused, Config, Edition, Kind, Layout, Refusal, Row, Sample};

fn no(number: u32, at: u32, field: u32) -> Refusal {
    Refusal { number, at, field }
}

fn layout(analogs: u32, statuses: u32, rows: u32, kind: Kind) -> Layout {
    Layout { analogs, statuses, rows, kind, edition: Edition::Year2013 }
}

fn one(kind: Kind) -> Layout {
    layout(1, 1, 2, kind)
}

fn example(name: &str) -> Vec<u8> {
    fs::read(Path::new(env!("CARGO_MANIFEST_DIR")).join("../../examples").join(name)).unwrap()
}

/// The refusal of a recording, as the listing has it.
fn listed(cfg: &[u8], dat: &[u8]) -> (&'static str, Refusal) {
    match zagalume::read_config(cfg).map(|config: Config| config.layout()) {
        Err(refusal) => ("cfg", refusal),
        Ok(layout) => ("dat", zagalume::check(layout, dat).unwrap_err()),
    }
}

#[test]
fn every_example_is_refused_as_it_says() {
    let folder = Path::new(env!("CARGO_MANIFEST_DIR")).join("../../examples/refusals");
    let mut numbers = BTreeSet::new();
    for entry in fs::read_dir(folder).unwrap() {
        let out = entry.unwrap().path();
        if out.extension().is_some_and(|word| word == "out") {
            let read = |word| fs::read(out.with_extension(word)).unwrap();
            let (file, refusal) = listed(&read("cfg"), &read("dat"));
            let written = zagalume::write_config(&read("cfg"), Kind::Ascii);
            assert_eq!(written.err(), Some(refusal).filter(|_| file == "cfg"), "{}", out.display());
            let Refusal { number, at, field } = refusal;
            let line = format!("no {file} {number} {at} {field}\n");
            assert_eq!(line.as_bytes(), read("out"), "{}", out.display());
            numbers.insert(number);
        }
    }
    assert_eq!(numbers, (2..=14).filter(|&number| number != refused::LAYOUT).collect());
}

#[test]
fn a_configuration_over_its_size() {
    assert_eq!(zagalume::read_config(&[b' '; 65_537]), Err(no(refused::CONFIG_SIZE, 0, 0)));
}

/// An accepted configuration of so many bytes: the names of its status channels fill it up.
fn configuration(size: usize) -> Vec<u8> {
    let [name, circuit, unit] = [("n", 128), ("c", 64), ("u", 32)].map(|(letter, count)| letter.repeat(count));
    let analog = |k| format!("{k},{name},A,{circuit},{unit},1,0,0,-1,1,1,1,S\r\n");
    let filled_up = |left: usize| {
        let status = |k| format!("{k},n{},,{circuit},0\r\n", "n".repeat(left * k / 256 - left * (k - 1) / 256));
        let channels: String = (1..=96).map(analog).chain((1..=256).map(status)).collect();
        let one = String::from_utf8(example("one.cfg")).unwrap();
        let (before, after) = (one.find("2,1A,1D").unwrap(), one.find("50\r\n").unwrap());
        format!("{}352,96A,256D\r\n{channels}{}", &one[..before], &one[after..]).into_bytes()
    };
    filled_up(size - filled_up(0).len())
}

#[test]
fn a_configuration_that_would_be_over_its_size() {
    let longest = configuration(65_536);
    assert_eq!(longest.len(), 65_536);
    assert_eq!(zagalume::write_config(&longest, Kind::Ascii).as_ref(), Ok(&longest));
    assert_eq!(zagalume::write_config(&longest, Kind::Binary), Err(no(refused::CONFIG_SIZE, 0, 0)));
    assert_eq!(zagalume::write_config_into(&longest, Kind::Binary32, &mut []), Err(no(refused::CONFIG_SIZE, 0, 0)));
    assert_eq!(zagalume::write_config(&configuration(65_537), Kind::Ascii), Err(no(refused::CONFIG_SIZE, 0, 0)));
}

#[test]
fn layouts_outside_the_limits() {
    for (a, d, rows) in
        [(97, 1, 2), (1, 257, 2), (0, 0, 2), (1, 1, 0), (1, 1, 1_000_001), (u32::MAX, u32::MAX, u32::MAX)]
    {
        let bad = layout(a, d, rows, Kind::Binary);
        let refusal = no(refused::LAYOUT, 0, 0);
        assert_eq!(zagalume::check(bad, &[]), Err(refusal));
        assert_eq!(zagalume::row(bad, &[], 0), Err(refusal));
        assert_eq!(zagalume::write_row_into(bad, 0, &[], &mut []), Err(refusal));
        assert_eq!(
            zagalume::write_row(bad, 0, &Row { time: 0, samples: vec![Sample::Missing], statuses: vec![] }),
            Err(refusal)
        );
        assert_eq!(zagalume::bytes_needed(bad, &[], Kind::Ascii), Err(refusal));
        assert_eq!(zagalume::change(bad, &[], Kind::Ascii), Err(refusal));
    }
}

#[test]
fn a_kind_that_the_edition_lacks() {
    let refusal = no(refused::LAYOUT, 0, 0);
    let lacking = Layout { edition: Edition::Year1999, ..one(Kind::Binary32) };
    assert_eq!(zagalume::check(lacking, &example("one-binary32.dat")), Err(refusal));
    assert_eq!(zagalume::row(lacking, &example("one-binary32.dat"), 1), Err(refusal));
    assert_eq!(zagalume::write_row_into(lacking, 1, &[0, 0, 0], &mut [0; 100]), Err(refusal));
    assert_eq!(zagalume::bytes_needed(lacking, &[], Kind::Binary), Err(refusal));
    assert_eq!(zagalume::change(lacking, &[], Kind::Binary), Err(refusal));
    let older = Layout { edition: Edition::Year1999, ..one(Kind::Ascii) };
    assert_eq!(zagalume::bytes_needed(older, b"bad", Kind::Binary32), Err(refusal));
    assert_eq!(zagalume::change_into(older, b"bad", Kind::Binary32, &mut []), Err(refusal));
    let cfg = example("one-1999.cfg");
    assert_eq!(zagalume::write_config(&cfg, Kind::Binary32), Err(refusal));
    assert_eq!(zagalume::write_config_into(&cfg, Kind::Binary32, &mut []), Err(refusal));
    assert_eq!(zagalume::write_config(&cfg[..cfg.len() - 5], Kind::Binary32), Err(no(refused::EARLY_END, 10, 0)));
}

#[test]
fn configurations_of_1999() {
    let older = String::from_utf8(example("one-1999.cfg")).unwrap();
    let refused_with = |cfg: &str| zagalume::read_config(cfg.as_bytes()).unwrap_err();
    let end = older.len();
    assert_eq!(refused_with(&older[..end - 1]), no(refused::BYTE, 11, 0));
    assert_eq!(refused_with(&older[..end - 3]), no(refused::EARLY_END, 11, 0));
    for rest in ["\r\n", "\x1A", "0,0\r\n0,3\r\n"] {
        assert_eq!(refused_with(&format!("{older}{rest}")), no(refused::BYTES_AFTER, 12, 0));
    }
    assert_eq!(refused_with(&format!("{}\x1A", older.trim_end())), no(refused::BYTE, 11, 0));
    assert_eq!(refused_with(&older.replace("1999", "2013")), no(refused::EARLY_END, 12, 0));
    for (year, number) in [("1991", refused::YEAR), ("199", refused::FORM), (" 1999", refused::FORM)] {
        assert_eq!(refused_with(&older.replace("1999", year)), no(number, 1, 3));
    }
    for (word, number) in [("BINARY32", refused::VALUE), ("float32", refused::VALUE), ("bin", refused::FORM)] {
        assert_eq!(refused_with(&older.replace("ASCII", word)), no(number, 10, 1));
    }
    assert_eq!(refused_with(&older.replace("ASCII\r\n1", "ASCII\r\n0")), no(refused::VALUE, 11, 1));
}

#[test]
fn dates_of_zeros() {
    let lines = ["03/02/2024,09:15:00.000000", "03/02/2024,09:15:00.001000"];
    for cfg in ["one.cfg", "one-1999.cfg"].map(|name| String::from_utf8(example(name)).unwrap()) {
        for (at, line) in (8..).zip(lines) {
            let refused_with = |text: &str| zagalume::read_config(cfg.replace(line, text).as_bytes()).unwrap_err();
            let zeros = "00:00:00.000000";
            for date in ["00/00/2024", "00/01/2024", "01/00/2024", "01/01/0000", "00/00/0001", "00/01/0000"] {
                assert_eq!(refused_with(&format!("{date},{zeros}")), no(refused::VALUE, at, 1), "{date}");
                assert_eq!(refused_with(&format!("{date},bad")), no(refused::VALUE, at, 1), "{date}");
            }
            for time in [
                "09:15:00.001000",
                "00:00:00.000001",
                "00:00:00.000000001",
                "24:00:00.000000",
                "00:00:00.00000",
                "00:00:00.0000000000",
                "00:00:00",
                " 00:00:00.000000",
                "00:00:00.000000 ",
                "::.",
                "bad",
                "",
            ] {
                assert_eq!(refused_with(&format!("00/00/0000,{time}")), no(refused::VALUE, at, 1), "{time}");
            }
            for date in ["0/0/0000", "00/00/000", "00/00/00000", " 00/00/0000", "00-00-0000", "//", ""] {
                assert_eq!(refused_with(&format!("{date},{zeros}")), no(refused::FORM, at, 1), "{date}");
            }
            assert_eq!(refused_with("//,::"), no(refused::FORM, at, 1));
            assert_eq!(refused_with("//,::."), no(refused::FORM, at, 1));
            assert_eq!(refused_with("03/02/2024,00:00:00.00000"), no(refused::FORM, at, 2));
            for text in ["00/00/0000", "", "00/00/0000,00:00:00.000000,", "00/00/0000,00:00:00,000000"] {
                assert_eq!(refused_with(text), no(refused::FIELD_COUNT, at, 0), "{text}");
            }
        }
    }
}

#[test]
fn texts_of_1999() {
    let older = Layout { edition: Edition::Year1999, ..layout(1, 1, 1, Kind::Ascii) };
    let check = |sample: &str| zagalume::check(older, format!("1,0,{sample},0\r\n").as_bytes());
    for sample in ["99998", "-99999", "99999", "0"] {
        assert_eq!(check(sample), Ok(()));
    }
    for sample in ["", " ", "100000", "-100000", "-2147483647"] {
        assert_eq!(check(sample), Err(no(refused::TEXT_ROW, 1, 3)));
    }
    let written = |number| {
        let row = Row { time: 0, samples: vec![Sample::Is(number)], statuses: vec![false] };
        zagalume::write_row(older, 1, &row)
    };
    for number in [99_998, -99_999] {
        assert_eq!(written(number), Ok(format!("1,0,{number},0\r\n").into_bytes()));
    }
    for number in [99_999, 100_000, -100_000, i32::MIN] {
        assert_eq!(written(number), Err(no(refused::MISFIT, 1, 3)));
    }
    for sample in ["32768", "-32768"] {
        let changed = zagalume::change(older, format!("1,0,{sample},0\r\n").as_bytes(), Kind::Binary);
        assert_eq!(changed, Err(no(refused::MISFIT, 1, 3)));
    }
}

#[test]
fn a_row_of_the_wrong_size_comes_before_no_such_row() {
    let refusal = Err(no(refused::LAYOUT, 0, 0));
    for (samples, statuses) in [(0, 1), (2, 1), (1, 0), (1, 2), (0, 2), (2, 0), (400, 400)] {
        let row = Row { time: 0, samples: vec![Sample::Missing; samples], statuses: vec![false; statuses] };
        assert_eq!(zagalume::write_row(one(Kind::Ascii), 3, &row), refusal);
    }
    assert_eq!(zagalume::write_row_into(one(Kind::Ascii), 3, &[0, 0], &mut []).map(|_| vec![]), refusal);
}

#[test]
fn no_such_row_comes_before_the_file() {
    for n in [0, 3, u32::MAX] {
        assert_eq!(zagalume::row(one(Kind::Ascii), b"bad", n), Err(no(refused::NO_SUCH_ROW, 0, 0)));
        let written = zagalume::write_row_into(one(Kind::Binary), n, &[-1, 40_000, 2], &mut []);
        assert_eq!(written, Err(no(refused::NO_SUCH_ROW, 0, 0)));
    }
}

#[test]
fn what_does_not_fit_comes_before_the_room() {
    let data = b"1,0,-3,0\r\n2,1000,32768,1\r\n";
    let refusal = Err(no(refused::MISFIT, 2, 3));
    assert_eq!(zagalume::bytes_needed(one(Kind::Ascii), data, Kind::Binary), refusal);
    assert_eq!(zagalume::change_into(one(Kind::Ascii), data, Kind::Binary, &mut []), refusal);
    let written = |kind, number| {
        let row = Row { time: 0, samples: vec![Sample::Is(number)], statuses: vec![false] };
        zagalume::write_row(one(kind), 1, &row)
    };
    for number in [32_768, -32_768, i32::MAX, -i32::MAX] {
        assert_eq!(written(Kind::Binary, number), Err(no(refused::MISFIT, 1, 3)));
        assert!(written(Kind::Ascii, number).is_ok() && written(Kind::Binary32, number).is_ok());
    }
    for kind in [Kind::Ascii, Kind::Binary, Kind::Binary32] {
        assert_eq!(written(kind, i32::MIN), Err(no(refused::MISFIT, 1, 3)));
    }
    for (field, row) in [(2, [-1, 40_000, 2]), (2, [1 << 32, 0, 0]), (3, [0, 40_000, 2]), (4, [0, 0, 2])] {
        let mut out = [7; 100];
        let written = zagalume::write_row_into(one(Kind::Binary), 2, &row, &mut out);
        assert_eq!((written, out), (Err(no(refused::MISFIT, 2, field)), [7; 100]));
    }
}

#[test]
fn only_a_sample_is_missing() {
    for kind in [Kind::Ascii, Kind::Binary, Kind::Binary32] {
        for (field, row) in [(2, [i64::MIN, 0, 0]), (3, [0, i64::MIN + 1, 0]), (4, [0, i64::MIN, i64::MIN])] {
            let mut out = [7; 100];
            let written = zagalume::write_row_into(one(kind), 2, &row, &mut out);
            assert_eq!((written, out), (Err(no(refused::MISFIT, 2, field)), [7; 100]));
        }
    }
}

#[test]
fn only_a_sample_may_be_empty() {
    let check = |line: &str| zagalume::check(layout(1, 1, 1, Kind::Ascii), line.as_bytes());
    assert_eq!(check("1,0,,0\r\n"), Ok(()));
    for (line, field) in [(",0,,0", 1), ("1,,,0", 2), ("1,0, ,0", 3), ("1,0,,", 4)] {
        assert_eq!(check(&format!("{line}\r\n")), Err(no(refused::TEXT_ROW, 1, field)));
    }
    for (analogs, line) in [(1, "1,7,\r\n"), (2, "1,7,,\r\n")] {
        let row = zagalume::row(layout(analogs, 0, 1, Kind::Ascii), line.as_bytes(), 1).unwrap();
        assert_eq!(row.samples, vec![Sample::Missing; analogs as usize]);
    }
}

#[test]
fn the_lowest_number_is_no_sample() {
    for sample in ["-2147483648", "-002147483648", "2147483648"] {
        let line = format!("1,0,{sample},0\r\n");
        let refusal = Err(no(refused::TEXT_ROW, 1, 3));
        assert_eq!(zagalume::check(layout(1, 1, 1, Kind::Ascii), line.as_bytes()), refusal);
    }
    let text = layout(1, 1, 1, Kind::Ascii);
    for (sample, number) in [("-2147483647", -2_147_483_647), ("-32768", -32_768)] {
        let line = format!("1,0,{sample},0\r\n");
        assert_eq!(zagalume::row(text, line.as_bytes(), 1).unwrap().samples, [Sample::Is(number)]);
        let to_binary = zagalume::change(text, line.as_bytes(), Kind::Binary);
        assert_eq!(to_binary, Err(no(refused::MISFIT, 1, 3)));
    }
}

#[test]
fn room_that_is_one_short() {
    let dat = example("one.dat");
    let refusal = Err(no(refused::NO_ROOM, 0, 0));
    let (mut places, mut bytes, mut cfg) = ([7; 2], [7; 23], [7; 167]);
    assert_eq!(zagalume::row_into(one(Kind::Ascii), &dat, 1, &mut places), refusal);
    assert_eq!(zagalume::write_row_into(one(Kind::Ascii), 1, &[0, -3, 0], &mut bytes[..9]), refusal);
    assert_eq!(zagalume::change_into(one(Kind::Ascii), &dat, Kind::Binary, &mut bytes), refusal);
    assert_eq!(zagalume::write_config_into(&example("one.cfg"), Kind::Binary, &mut cfg), refusal);
    assert_eq!((places, bytes, cfg), ([7; 2], [7; 23], [7; 167]));
}

#[test]
fn every_number_has_a_meaning_that_fits() {
    let mut texts = BTreeSet::new();
    for number in 1..=17 {
        let text = zagalume::reason(number).unwrap();
        assert!(text.bytes().all(|byte| (32..=126).contains(&byte)), "{text}");
        let mut out = vec![7; text.len() - 1];
        assert_eq!(zagalume::reason_into(number, &mut out), Err(no(refused::NO_ROOM, 0, 0)));
        assert!(out.iter().all(|&byte| byte == 7));
        texts.insert(text);
    }
    assert_eq!(texts.len(), 17);
    for number in [0, 18, u32::MAX] {
        assert_eq!(zagalume::reason(number), Err(no(refused::LAYOUT, 0, 0)));
    }
}

#[test]
fn a_refusal_is_said_with_number_place_and_meaning() {
    let said = |number, at, field, place| {
        let text = format!("refusal {number}{place}: {}", zagalume::reason(number).unwrap());
        assert_eq!(no(number, at, field).to_string(), text);
    };
    said(refused::CONFIG_SIZE, 0, 0, "");
    said(refused::BYTES_AFTER, 14, 0, " at line 14");
    said(refused::FORM, 3, 9, " at line 3, field 9");
    said(refused::FILE_LENGTH, 3, 0, " at row 3");
    said(refused::ROW_NUMBER, 2, 1, " at row 2, field 1");
    assert_eq!(no(99, 0, 0).to_string(), "refusal 99");
}
