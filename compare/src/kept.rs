//! Cases with known answers, as the files of kept/ have them; README.md says how a case is spelled.

use crate::case::{parse, parse_layout, Case, Layout, CONFIG_PLACES};
use crate::draft::{Draft, RECORDING};
use crate::judge::Expected;
use crate::walk::Walk;
use crate::words::{Names, Words, MISSING};
use second::Answer;

/// The files, in an order that stays.
const FILES: [(&str, &str); 7] = [
    ("vectors", include_str!("../kept/vectors")),
    ("configurations", include_str!("../kept/configurations")),
    ("rewritten", include_str!("../kept/rewritten")),
    ("data", include_str!("../kept/data")),
    ("changes", include_str!("../kept/changes")),
    ("editions", include_str!("../kept/editions")),
    ("no_date", include_str!("../kept/no_date")),
];

/// What the recording of the rules shows.
#[rustfmt::skip]
const SHOWN: [i64; CONFIG_PLACES] = [
    1, 1, 1, 2, 2, 0, 0, 0, 0, 0, 0, 0, 2024, 2, 3, 9, 15, 0, 0, 2024, 2, 3, 9, 15, 0, 1_000_000,
    0, 1_000_000, 0, 0, 0, 0, 0, 3, 2013,
];

/// The names of what is shown, the place where each begins, and how many it has.
#[rustfmt::skip]
const NAMED: [(&str, usize, usize); 14] = [
    ("A", 0, 1), ("D", 1, 1), ("rates", 2, 1), ("rows", 3, 1), ("last", 4, 8), ("first", 12, 7), ("trigger", 19, 7),
    ("pretrigger", 26, 2), ("kind", 28, 1), ("code", 29, 1), ("local", 30, 2), ("quality", 32, 1), ("leap", 33, 1), ("edition", 34, 1),
];

/// A case and what it must answer.
type Known = (Case, Expected);

/// All cases, in an order that stays.
pub fn walk(walk: &mut Walk) {
    for (file, text) in FILES {
        let mut names = Names::new();
        for (number, line) in (1..).zip(text.lines()).filter(|(_, line)| !line.is_empty() && !line.starts_with('#')) {
            let place = format!("kept/{file}:{number}");
            let words = &mut Words::of(line, &names);
            let first = words.word().unwrap_or_default();
            if words.is("=") {
                let bytes = words.bytes().unwrap_or_else(|| panic!("{place} is misspelled: {line}"));
                names.insert(first, bytes);
                continue;
            }
            let known = read(words, &place).unwrap_or_else(|| panic!("{place} is misspelled: {line}"));
            known.iter().for_each(|(case, expected)| walk.known(case, expected));
        }
    }
}

/// The cases of a line, after its first word, which says what they are about; nothing if it is misspelled.
fn read(w: &mut Words, line: &str) -> Option<Vec<Known>> {
    let known = if w.is("line") {
        vec![configuration(w, &Draft::of(RECORDING), &SHOWN, line)?]
    } else if w.is("line1999") {
        vec![configuration(w, &Draft::of(RECORDING).of_1999(), &shown_of_1999(), line)?]
    } else if w.is("data") {
        data(w, line)?
    } else {
        vec![call(w, line)?]
    };
    w.ended().then_some(known)
}

/// A "yes" with nothing to tell; what it shows or writes is added.
fn yes(line: &str) -> Expected {
    let answer = Answer { number: 0, at: 0, field: 0, length: 0 };
    Expected { answer, places: Vec::new(), bytes: Vec::new(), line: line.to_string() }
}

/// A "yes" that shows these places.
fn shows(places: Vec<i64>, line: &str) -> Expected {
    Expected { places, ..yes(line) }
}

/// A "yes" that writes these bytes.
fn writes(bytes: Vec<u8>, line: &str) -> Expected {
    let mut expected = yes(line);
    expected.answer.length = bytes.len() as u32;
    Expected { bytes, ..expected }
}

/// A "no": number, line or row, field. Nothing if the next word is not `no`.
fn no(w: &mut Words, line: &str) -> Option<Expected> {
    let mut expected = yes(line);
    w.is("no").then_some(())?;
    expected.answer = Answer { number: w.number()?, at: w.number()?, field: w.number()?, length: 0 };
    Some(expected)
}

/// One call as it stands.
fn call(w: &mut Words, line: &str) -> Option<Known> {
    let case = parse(w)?;
    w.is("->").then_some(())?;
    if !w.is("yes") {
        return Some((case, no(w, line)?));
    }
    let mut expected = yes(line);
    match &case {
        Case::Check { .. } => (),
        Case::Length { .. } => expected.answer.length = w.number()?,
        Case::Config { .. } | Case::Row { .. } => {
            let places = w.numbers().filter(|places| 8 * places.len() == case.reported(0))?;
            expected = shows(places, line);
        }
        Case::WriteConfig { .. } | Case::WriteRow { .. } | Case::Change { .. } | Case::Reason { .. } => {
            expected = writes(w.bytes()?, line)
        }
    }
    Some((case, expected))
}

/// What the recording shows as one of 1999: nothing of the lines that it then lacks.
fn shown_of_1999() -> [i64; CONFIG_PLACES] {
    let mut shown = SHOWN;
    shown[29..34].fill(MISSING);
    shown[34] = 1999;
    shown
}

/// A recording with other bytes in place of its lines `7`, `6-7`, or `13-`, where the file ends with these bytes.
fn replaced(recording: &Draft, lines: &str, bytes: &[u8]) -> Option<Vec<u8>> {
    let whole = recording.bytes();
    let recording: Vec<&[u8]> = whole.split_inclusive(|&byte| byte == b'\n').collect();
    let (first, last) = lines.split_once('-').unwrap_or((lines, lines));
    let before = first.parse::<usize>().ok()?.checked_sub(1)?;
    let start = [&recording.get(..before)?.concat(), bytes].concat();
    if last.is_empty() {
        return Some(start);
    }
    let after = recording.get(last.parse().ok()?..)?;
    Some([start, b"\r\n".to_vec(), after.concat()].concat())
}

/// A recording with some of its lines replaced; a "yes" shows what it does, but for what is told by its name.
fn configuration(w: &mut Words, recording: &Draft, shown: &[i64], line: &str) -> Option<Known> {
    let lines = w.word()?;
    let case = Case::Config { cfg: replaced(recording, lines, &w.bytes()?)?, places: shown.len() };
    w.is("->").then_some(())?;
    if !w.is("yes") {
        return Some((case, no(w, line)?));
    }
    let mut shown = shown.to_vec();
    while let Some(name) = w.word() {
        let &(_, start, count) = NAMED.iter().find(|named| named.0 == name)?;
        let values = match name {
            "local" if w.is("x") => vec![1, 0],
            "local" => vec![0, w.number()?],
            _ => w.numbers()?,
        };
        shown[start..start + count].get_mut(..values.len())?.copy_from_slice(&values);
    }
    Some((case, shows(shown, line)))
}

/// A data file and a row of it: the check, the row shown, and where it is shown the row written.
fn data(w: &mut Words, line: &str) -> Option<Vec<Known>> {
    let (layout, n, file) = (parse_layout(w)?, w.number()?, w.bytes()?);
    let new = if w.is("write") { Some((parse_layout(w)?, w.number()?)) } else { None };
    w.is("->").then_some(())?;
    let checked = if w.is("yes") { yes(line) } else { no(w, line)? };
    let check = Case::Check { layout, file: file.clone() };
    let row = Case::Row { layout, file, n, places: layout.places() };
    if !w.is("row") {
        return (checked.answer.number > 0).then_some(vec![(check, checked.clone()), (row, checked)]);
    }
    if let Some(refused) = no(w, line) {
        return Some(vec![(check, checked), (row, refused)]);
    }
    let places = w.numbers().filter(|places| places.len() == layout.places())?;
    w.is("written").then_some(())?;
    let written = no(w, line).or_else(|| Some(writes(w.bytes()?, line)))?;
    let (new, room) = new.unwrap_or((layout, written.bytes.len()));
    let write = Case::WriteRow { layout: new, n, row: moved(&places, layout, new), room };
    Some(vec![(check, checked), (row, shows(places, line)), (write, written)])
}

/// The places of a row in another layout: each channel keeps its number, and those that there were not are 0.
fn moved(places: &[i64], old: Layout, new: Layout) -> Vec<i64> {
    let (samples, statuses) = places[1..].split_at(old.a as usize);
    let channels = |old: &[i64], count: u32| {
        let mut new = old.to_vec();
        new.resize(count as usize, 0);
        new
    };
    let (a, d) = (new.a.min(100), new.d.min(300));
    [places[..1].to_vec(), channels(samples, a), channels(statuses, d)].concat()
}
