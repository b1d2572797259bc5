//! Random cases: a good file, damaged up to four times, and arguments near those that go with it.

use crate::calls::{needed, rewritten_length};
use crate::case::{Case, Layout, CONFIG_PLACES};
use crate::damage;
use crate::data::{EDITIONS, ENDINGS, FIELDS};
use crate::draft::Draft;
use crate::files::{row_bytes, text, Recording, BEYOND, EDITION_KINDS, SAMPLES};
use dice::Dice;

/// The case of a seed and a number.
pub fn case(seed: u64, index: u64) -> Case {
    let dice = &mut Dice::of(seed, index);
    match dice.below(16) {
        0..=3 => config(dice),
        4..=5 => write_config(dice),
        6..=7 => check(dice),
        8..=9 => row(dice),
        10..=11 => write_row(dice),
        12 => length(dice),
        13..=14 => change(dice),
        _ if dice.once_in(16) => Case::Reason { number: dice.below(20) as u32, room: dice.index(120) },
        _ => change(dice),
    }
}

/// How many times a file is damaged: often not at all, most often once.
fn damages(dice: &mut Dice) -> u64 {
    match dice.below(10) {
        0..=2 => 0,
        3..=6 => 1,
        7..=8 => 2,
        _ => dice.within(3, 4) as u64,
    }
}

/// A length near another.
fn near(dice: &mut Dice, exact: usize) -> usize {
    match dice.below(10) {
        0 => 0,
        1 => exact - 1,
        2 => exact + 1,
        3 => exact + dice.index(40),
        4 => dice.index(exact + 1),
        _ => exact,
    }
}

fn config(dice: &mut Dice) -> Case {
    let draft = Draft::random(dice);
    let damages = damages(dice);
    let mut cfg = damaged(dice, draft, damages);
    if dice.once_in(2000) {
        cfg.resize(65_530 + dice.index(10), b' ');
    }
    let places = if dice.once_in(4) { near(dice, CONFIG_PLACES) } else { CONFIG_PLACES };
    Case::Config { cfg, places }
}

/// A configuration that is accepted most often, many with spaces before their numbers, and a kind and room near what it needs.
fn write_config(dice: &mut Dice) -> Case {
    let cfg = if dice.once_in(400) { longest(dice) } else { shorter(dice) };
    let kind = if dice.once_in(16) { dice.pick(&[3, 4, 256, u32::MAX]) } else { dice.below(3) as u32 };
    let exact = rewritten_length(&cfg, kind);
    Case::WriteConfig { room: near(dice, exact), cfg, kind }
}

/// A configuration, damaged in one half of the cases, with spaces before its numbers in the other.
fn shorter(dice: &mut Dice) -> Vec<u8> {
    let mut draft = Draft::random(dice);
    if dice.once_in(2) {
        draft.space_out(dice);
        return damaged(dice, draft, 0);
    }
    let damages = damages(dice);
    damaged(dice, draft, damages)
}

/// A configuration about as long as one may be, of any kind, with and without its last CR LF.
fn longest(dice: &mut Dice) -> Vec<u8> {
    let plain = Draft::plain(96, 256, &[2]).of_kind(dice.pick(&["ascii", "Binary", "BINARY32"]));
    let plain = if dice.once_in(3) { plain.of_1999() } else { plain };
    let draft = if dice.once_in(4) { plain.spaced() } else { plain };
    let mut cfg = draft.filled_up(65_528 + dice.index(12));
    cfg.truncate(cfg.len() - dice.pick(&[0, 2]));
    cfg
}

/// The bytes of a draft, its fields and then its bytes damaged so many times; now and then the last line ends with the file.
fn damaged(dice: &mut Dice, mut draft: Draft, damages: u64) -> Vec<u8> {
    let of_fields = if dice.once_in(3) { 0 } else { dice.below(damages + 1) };
    for _ in 0..of_fields {
        damage_fields(dice, &mut draft);
    }
    let mut cfg = draft.bytes();
    for _ in of_fields..damages {
        cfg = damage::random(dice, &cfg);
    }
    if dice.once_in(4) && cfg.ends_with(b"\r\n") {
        cfg.truncate(cfg.len() - 2);
    }
    cfg
}

/// One field or line of a configuration made another.
fn damage_fields(dice: &mut Dice, draft: &mut Draft) {
    let line = dice.index(draft.lines.len());
    if draft.lines[line].is_empty() {
        return;
    }
    let field = dice.index(draft.lines[line].len());
    match dice.below(16) {
        0 => drop(draft.lines.remove(line)),
        1 => draft.lines.insert(line, draft.lines[line].clone()),
        2 => {
            let other = dice.index(draft.lines.len());
            draft.lines.swap(line, other);
        }
        3 => drop(draft.lines[line].remove(field)),
        4 => {
            let copy = draft.lines[line][field].clone();
            draft.lines[line].insert(field, copy);
        }
        5 => {
            let other = dice.index(draft.lines.len());
            if let Some(copy) = draft.lines[other].first().cloned() {
                draft.lines[line][field].bytes = copy.bytes;
            }
        }
        _ => {
            let values = draft.lines[line][field].rule.values();
            draft.lines[line][field].bytes = values[dice.index(values.len())].clone();
        }
    }
}

/// A layout of few channels and rows most often.
fn layout(dice: &mut Dice) -> Layout {
    let (a, d) = match dice.below(100) {
        0 => (96, 256),
        1..=6 => (dice.below(97), dice.below(257)),
        7..=30 => (dice.below(4), dice.within(14, 34) as u64),
        _ => (dice.below(5), dice.below(6)),
    };
    let rows = match dice.below(50) {
        0 => dice.within(1, 60),
        1..=10 => dice.within(1, 12),
        _ => dice.within(1, 3),
    };
    let a = if a + d == 0 { 1 } else { a };
    Layout::of(a as u32, d as u32, rows as u32, dice.pick(&EDITION_KINDS))
}

/// A file and the layout that it is asked with: the file's own, or one beside it.
fn file(dice: &mut Dice) -> (Layout, Vec<u8>) {
    let layout = layout(dice);
    let recording = Recording::random(dice, layout);
    let file = if layout.kind == 0 { random_text(dice, &recording) } else { random_binary(dice, &recording) };
    (asked(dice, layout), file)
}

/// The layout, or one in which a number is another.
fn asked(dice: &mut Dice, layout: Layout) -> Layout {
    let Layout { a, d, rows, kind, .. } = layout;
    let near = |dice: &mut Dice, number: u32, most: u32| match dice.below(6) {
        0 => u32::MAX,
        1 => most + 1,
        2 => 0,
        3 => number + 1,
        4 => number.wrapping_sub(1),
        _ => dice.word() as u32,
    };
    match dice.below(64) {
        0 => Layout { a: near(dice, a, 96), ..layout },
        1 => Layout { d: near(dice, d, 256), ..layout },
        2 => Layout { rows: near(dice, rows, 1_000_000), ..layout },
        3 => Layout { kind: near(dice, kind, 2), ..layout },
        4 => layout.of_kind(dice.below(3) as u32),
        5 => layout.of_edition(dice.pick(&EDITIONS)),
        _ => layout,
    }
}

/// A text with its lines spelled in many ways, then damaged.
fn random_text(dice: &mut Dice, recording: &Recording) -> Vec<u8> {
    let mut lines = if dice.once_in(2) { recording.spelled(dice) } else { recording.lines() };
    let damages = damages(dice);
    let of_fields = dice.below(damages + 1);
    for _ in 0..of_fields {
        damage_line(dice, &mut lines);
    }
    let ending = if dice.once_in(12) { dice.pick(&ENDINGS) } else { ENDINGS[dice.index(3)] };
    let mut file = text(&lines, ending);
    for _ in of_fields..damages {
        file = damage::random(dice, &file);
    }
    file
}

/// One field or row of a text made another.
fn damage_line(dice: &mut Dice, lines: &mut Vec<Vec<String>>) {
    if lines.is_empty() {
        return;
    }
    let (line, other) = (dice.index(lines.len()), dice.index(lines.len()));
    let field = dice.index(lines[line].len().max(1));
    match dice.below(16) {
        0 => lines.swap(line, other),
        1 => lines.insert(line, lines[other].clone()),
        2 => drop(lines.remove(line)),
        3 => lines[line].insert(field, String::from("0")),
        _ if lines[line].is_empty() => (),
        4 => drop(lines[line].remove(field)),
        5 => lines[line][field] = format!("{:>1$}", lines[line][field], dice.index(16)),
        6 => lines[line][field].push(' '),
        _ => lines[line][field] = String::from(dice.pick(&FIELDS)),
    }
}

/// A binary file, its rows and bytes damaged.
fn random_binary(dice: &mut Dice, recording: &Recording) -> Vec<u8> {
    let mut file = recording.bytes();
    let size = file.len() / recording.rows.len();
    for _ in 0..damages(dice) {
        let row = dice.index(recording.rows.len()) * size;
        let other = dice.index(recording.rows.len()) * size;
        if file.len() < row.max(other) + size {
            return file;
        }
        let damaged: Vec<u8> = match dice.below(12) {
            0 => damage::random(dice, &file),
            1 => damage::spliced(&file, row, size, &[]),
            2 => damage::spliced(&file, row, 0, &file[other..other + size]),
            3 => damage::spliced(&file, row, size, &file[other..other + size]),
            4..=6 => flipped(dice, &file, row, 4),
            7..=9 => flipped(dice, &file, row + size - 2, 2),
            _ => flipped(dice, &file, row, size),
        };
        file = damaged;
    }
    file
}

/// One bit turned in so many bytes from a place on.
fn flipped(dice: &mut Dice, file: &[u8], start: usize, length: usize) -> Vec<u8> {
    let at = start + dice.index(length);
    damage::Damage::Flip(dice.below(8) as u8).at(file, at)
}

/// A row of the layout most often.
fn row_asked(dice: &mut Dice, layout: Layout) -> u32 {
    match dice.below(16) {
        0 => 0,
        1 => layout.rows.wrapping_add(1),
        2 => dice.word() as u32,
        _ => 1 + dice.below(u64::from(layout.rows.clamp(1, 1_000_000))) as u32,
    }
}

fn new_kind(dice: &mut Dice) -> u32 {
    if dice.once_in(32) {
        return dice.pick(&[3, 4, u32::MAX]);
    }
    dice.below(3) as u32
}

fn check(dice: &mut Dice) -> Case {
    let (layout, file) = file(dice);
    Case::Check { layout, file }
}

fn row(dice: &mut Dice) -> Case {
    let (layout, file) = file(dice);
    let places = if dice.once_in(4) { near(dice, layout.places()) } else { layout.places() };
    Case::Row { layout, file, n: row_asked(dice, layout), places }
}

fn length(dice: &mut Dice) -> Case {
    let (layout, file) = file(dice);
    Case::Length { layout, file, new_kind: new_kind(dice) }
}

fn change(dice: &mut Dice) -> Case {
    let (layout, file) = file(dice);
    let new_kind = new_kind(dice);
    let exact = needed(layout, &file, new_kind);
    let room = near(dice, exact);
    Case::Change { layout, file, new_kind, room }
}

fn write_row(dice: &mut Dice) -> Case {
    let layout = layout(dice);
    let rows = if dice.once_in(4) { dice.within(1, 1_000_000) as u32 } else { layout.rows };
    let mut row = Recording::random(dice, Layout { rows: 1, ..layout }).rows.remove(0);
    let layout = asked(dice, Layout { rows, ..layout });
    let n = row_asked(dice, layout);
    for _ in 0..dice.below(6).saturating_sub(3) {
        let place = dice.index(row.len());
        row[place] = if dice.once_in(2) { dice.pick(&BEYOND) } else { dice.pick(&SAMPLES) };
    }
    match dice.below(24) {
        0 => drop(row.pop()),
        1..=3 => row.push(dice.word() as i64),
        4 => row.resize(row.len() + dice.index(400), -1),
        _ => (),
    }
    let places = layout.places().min(row.len());
    let a = layout.a.min(places as u32 - 1);
    let exact = row_bytes(Layout { a, ..layout }, n, &row[..places]).len();
    Case::WriteRow { layout, n, row, room: near(dice, exact) }
}
