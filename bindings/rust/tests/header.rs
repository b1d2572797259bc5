//! The names and numbers of include/zagalume.h are those of this crate, and its calls those of `zagalume-raw`.

use std::collections::BTreeMap;
use zagalume::{limits, refused, Edition, Kind, Sample};

const HEADER: &str = include_str!("../../../include/zagalume.h");

/// Every `ZL_NAME = NUMBER` of the header.
fn named() -> BTreeMap<&'static str, usize> {
    let mut names = BTreeMap::new();
    for line in HEADER.lines() {
        let Some((name, rest)) = line.trim().strip_prefix("ZL_").and_then(|rest| rest.split_once(" = ")) else {
            continue;
        };
        let digits = rest.split(|c: char| !c.is_ascii_digit()).next().unwrap();
        names.insert(name, digits.parse().unwrap());
    }
    names
}

/// Those whose name begins with a word, after that word.
fn named_after(word: &str) -> BTreeMap<&'static str, usize> {
    named().into_iter().filter_map(|(name, number)| Some((name.strip_prefix(word)?, number))).collect()
}

#[test]
fn kinds() {
    for (name, kind) in [("ASCII", Kind::Ascii), ("BINARY", Kind::Binary), ("BINARY32", Kind::Binary32)] {
        assert_eq!(named()[name], kind.number() as usize);
    }
}

#[test]
fn editions() {
    let numbers = [("2013", Edition::Year2013), ("1999", Edition::Year1999)];
    let ours = numbers.map(|(name, edition)| (name, edition.year() as usize));
    assert_eq!(BTreeMap::from(ours), named_after("EDITION_"));
}

#[test]
fn refusals() {
    let numbers = [
        ("CONFIG_SIZE", refused::CONFIG_SIZE),
        ("EARLY_END", refused::EARLY_END),
        ("BYTE", refused::BYTE),
        ("FIELD_COUNT", refused::FIELD_COUNT),
        ("FORM", refused::FORM),
        ("VALUE", refused::VALUE),
        ("AGREEMENT", refused::AGREEMENT),
        ("YEAR", refused::YEAR),
        ("BYTES_AFTER", refused::BYTES_AFTER),
        ("LAYOUT", refused::LAYOUT),
        ("FILE_LENGTH", refused::FILE_LENGTH),
        ("ROW_NUMBER", refused::ROW_NUMBER),
        ("PADDING", refused::PADDING),
        ("TEXT_ROW", refused::TEXT_ROW),
        ("NO_SUCH_ROW", refused::NO_SUCH_ROW),
        ("MISFIT", refused::MISFIT),
        ("NO_ROOM", refused::NO_ROOM),
    ];
    let ours = numbers.map(|(name, number)| (name, number as usize));
    assert_eq!(BTreeMap::from(ours), named_after("REFUSED_"));
}

#[test]
fn limits() {
    let numbers = [
        ("CONFIG_BYTES", limits::MOST_CONFIG_BYTES),
        ("ANALOGS", limits::MOST_ANALOGS),
        ("STATUSES", limits::MOST_STATUSES),
        ("RATES", limits::MOST_RATES),
        ("ROWS", limits::MOST_ROWS),
        ("ROW_PLACES", limits::MOST_ROW_PLACES),
        ("ROW_BYTES", limits::MOST_ROW_BYTES),
        ("REASON_BYTES", limits::MOST_REASON_BYTES),
    ];
    assert_eq!(BTreeMap::from(numbers), named_after("MOST_"));
}

#[test]
fn missing() {
    let named: Vec<&str> = HEADER.lines().filter_map(|line| line.strip_prefix("#define ZL_NONE ")).collect();
    assert_eq!(named, ["INT64_MIN"]);
    assert_eq!(Sample::Missing.place(), i64::MIN);
}

#[test]
fn version() {
    let version = include_str!("../../../VERSION").trim();
    assert_eq!(env!("CARGO_PKG_VERSION"), version);
    let raw = include_str!("../../raw/Cargo.toml");
    assert!(raw.lines().any(|line| line == format!("version = \"{version}\"")));
}

/// A parameter as Rust declares it: `const uint8_t *cfg` is `cfg: *const u8`.
fn parameter(in_c: &str) -> String {
    let words = in_c.replace("uint", "u").replace("int", "i").replace("size_t", "usize").replace("_t", "");
    let (kind, name) = words.trim().rsplit_once(' ').unwrap();
    match (name.strip_prefix('*'), kind.strip_prefix("const ")) {
        (Some(name), Some(kind)) => format!("{name}: *const {kind}"),
        (Some(name), None) => format!("{name}: *mut {kind}"),
        (None, _) => format!("{name}: {kind}"),
    }
}

#[test]
fn calls() {
    let mut theirs = Vec::new();
    for call in HEADER.split("\nzl_answer ").skip(1) {
        let (name, rest) = call.split_once('(').unwrap();
        let parameters: Vec<String> = rest.split_once(");").unwrap().0.split(',').map(parameter).collect();
        theirs.push(format!("pub fn {name}({}) -> Answer;", parameters.join(", ")));
    }
    let lines = include_str!("../../raw/src/lib.rs").lines().map(str::trim);
    let ours: Vec<&str> = lines.filter(|line| line.starts_with("pub fn ")).collect();
    assert_eq!(ours, theirs);
    assert!(!ours.is_empty());
}
