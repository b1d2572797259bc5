//! Recordings made by chance, the same ones in every run: whole, in any form the rules allow, or damaged.

mod cfg;

pub use cfg::{configuration, configuration_of_size, dates_of_zeros};

use bench::LayoutNumbers;
use dice::Dice;

/// A missing sample in the rows that a file is made from.
pub const NONE: i64 = i64::MIN;

/// A number near some edge of what a field may hold.
pub fn odd_number(dice: &mut Dice) -> i64 {
    let edge = dice.pick(&[0, 1 << 15, 1 << 16, 1 << 31, 1 << 32, i64::MAX, NONE, 9_999, 100_000]);
    let near = edge.wrapping_add(dice.below(5) as i64 - 2);
    if dice.once_in(2) {
        near
    } else {
        near.wrapping_neg()
    }
}

/// A layout, the rows it is made from, and a data file.
pub struct Recording {
    pub layout: LayoutNumbers,
    pub values: Vec<Vec<i64>>,
    pub data: Vec<u8>,
}

impl Recording {
    /// A recording of a few rows; the file is damaged, or the layout another than its own, in a part of them.
    pub fn made(dice: &mut Dice) -> Recording {
        let (a, d) = channels(dice);
        let rows = 1 + dice.below(5) as u32;
        let edition = dice.pick(&[2013, 2013, 1999]);
        let kind = dice.below(if edition == 1999 { 2 } else { 3 }) as u32;
        let wide: &[i64] = match (kind, edition) {
            (1, _) => &[],
            _ if dice.below(3) > 0 => &[],
            (_, 1999) => &WIDE_IN_1999,
            _ => &WIDE,
        };
        let missing = dice.pick(&[0, 0, 1, 2, 5]);
        let values: Vec<Vec<i64>> = (0..rows).map(|_| row(dice, a, d, wide, missing)).collect();
        let mut data = match kind {
            0 => text_file(dice, &values, a as usize, edition),
            _ => binary_file(&values, a as usize, 2 * kind as usize),
        };
        if dice.once_in(2) {
            for _ in 0..1 + dice.below(2) {
                damage(dice, &mut data);
            }
        }
        let mut made = Recording { layout: LayoutNumbers { a, d, rows, kind, edition }, values, data };
        if dice.once_in(12) {
            made.change_layout(dice);
        }
        made
    }

    fn change_layout(&mut self, dice: &mut Dice) {
        let odd = dice.pick(&[0, 1, 2, 3, 97, 257, 1_000_000, 1_000_001, u32::MAX]);
        match dice.below(5) {
            0 => self.layout.a = odd,
            1 => self.layout.d = odd,
            2 => self.layout.rows = odd,
            3 => self.layout.kind = odd,
            _ => self.layout.edition = dice.pick(&[0, 1991, 1999, 2013, 2014, u32::MAX]),
        }
    }
}

/// Samples that do not fit 16 bits.
const WIDE: [i64; 7] = [-2_147_483_647, 2_147_483_647, 32_768, -32_768, -32_769, 999_999_999, 1_000_000_000];

/// The same of those that a text of 1999 may have.
const WIDE_IN_1999: [i64; 6] = [99_998, -99_999, 99_997, 32_768, -32_768, -32_769];

fn channels(dice: &mut Dice) -> (u32, u32) {
    let known = [(1, 1), (8, 16), (0, 1), (1, 0), (0, 17), (2, 15), (3, 32), (0, 256), (5, 4), (2, 5), (6, 6)];
    match dice.below(20) {
        0 => (96, 256),
        1 => (96, 0),
        2..=9 => (dice.below(6) as u32, 1 + dice.below(40) as u32),
        _ => dice.pick(&known),
    }
}

/// A time, samples and statuses; some samples are of the wide ones where there are any, and one sample of so many is
/// missing, or none where that is 0.
fn row(dice: &mut Dice, a: u32, d: u32, wide: &[i64], missing: u64) -> Vec<i64> {
    let mut row = vec![match dice.below(4) {
        0 => dice.pick(&[0, 4_294_967_295, 4_294_967_294, 999_999_999, 1_000_000_000]),
        _ => (dice.word() as u32 >> dice.below(32)) as i64,
    }];
    for _ in 0..a {
        let sample = match dice.below(6) {
            _ if missing > 0 && dice.once_in(missing) => NONE,
            0 => dice.pick(&[0, -1, 9, 10, -10, 99, 100, -32_767, 32_767]),
            1 if !wide.is_empty() => dice.pick(wide),
            _ => (dice.word() as i16 >> dice.below(16)).max(-32_767).into(),
        };
        row.push(sample);
    }
    row.extend((0..d).map(|_| dice.below(2) as i64));
    row
}

fn binary_file(values: &[Vec<i64>], a: usize, width: usize) -> Vec<u8> {
    let mut data = Vec::new();
    for (n, row) in (1u32..).zip(values) {
        data.extend(n.to_le_bytes());
        data.extend(&row[0].to_le_bytes()[..4]);
        for &sample in &row[1..1 + a] {
            let lowest = -1 << (8 * width - 1);
            data.extend(&sample.max(lowest).to_le_bytes()[..width]);
        }
        for statuses in row[1 + a..].chunks(16) {
            let word = (0..).zip(statuses).fold(0u16, |word, (bit, &status)| word | (status as u16) << bit);
            data.extend(word.to_le_bytes());
        }
    }
    data
}

/// A number in one of its forms: plain, or with zeros, a sign and spaces, in at most `most` characters.
fn text_number(dice: &mut Dice, value: i64, most: usize, signed: bool) -> String {
    let sign = match (value < 0, signed && dice.once_in(3)) {
        (true, _) => "-",
        (false, true) => dice.pick(&["+", if value == 0 { "-" } else { "+" }]),
        (false, false) => "",
    };
    let mut text = value.unsigned_abs().to_string();
    let free = |text: &str| (most - (text.len() + sign.len()).min(most)) as u64;
    let zeros = dice.below(free(&text) + 1) as usize;
    text.insert_str(0, &"0".repeat(if dice.once_in(2) { zeros } else { 0 }));
    let spaces = dice.below(free(&text) + 1) as usize;
    format!("{}{sign}{text}", " ".repeat(spaces))
}

/// Text fields at the edges of what each field may say.
const ODD_FIELDS: &[&str] = &[
    "2147483647",
    "2147483648",
    "-2147483647",
    "-2147483648",
    "-2147483649",
    "+2147483648",
    "4294967295",
    "4294967296",
    "-4294967296",
    "9999999999",
    "18446744073709551617",
    "99998",
    "99999",
    "+99999",
    "  99999",
    "0000000099999",
    "00000000099999",
    "100000",
    "-99999",
    "-100000",
    "32768",
    "-32767",
    "-32768",
    "-32769",
    "+1",
    "-0",
    "- 5",
    "5.0",
    "1E2",
    "",
    "-",
    "+",
    " ",
    "             ",
    "2",
    "00",
    "01",
    " 1",
    "1 ",
    "000000001",
    "0000000001",
    "00000000001",
    "            1",
    "             1",
    "0000000000005",
    "00000000000005",
    "+000000000005",
    "+0000000000005",
];

/// How the fields of a text file are written.
#[derive(Clone, Copy, PartialEq)]
enum Style {
    Plain,
    Mixed,
    Longest,
}

/// One field of a text row in a style: the number in 10 characters, time and samples in 13, statuses in one. A missing
/// sample is an empty field in 2013, and 99999 in 1999.
fn text_field(dice: &mut Dice, style: Style, place: usize, a: usize, value: i64, edition: u32) -> String {
    let most = if place == 0 { 10 } else { 13 };
    match style {
        _ if value == NONE && edition == 2013 => String::new(),
        _ if value == NONE => text_field(dice, style, place, a, 99_999, edition),
        _ if place > 1 + a => value.to_string(),
        Style::Plain => value.to_string(),
        Style::Mixed => text_number(dice, value, most, place > 1),
        Style::Longest => format!("{value:most$}"),
    }
}

fn text_file(dice: &mut Dice, values: &[Vec<i64>], a: usize, edition: u32) -> Vec<u8> {
    let style = dice.pick(&[Style::Plain, Style::Plain, Style::Mixed, Style::Mixed, Style::Longest]);
    let odd_row = dice.below(4 * values.len() as u64) as usize + 1;
    let odd_place = dice.below(1 + values[0].len() as u64) as usize;
    let mut text = String::new();
    for (n, row) in (1..).zip(values) {
        for (place, &value) in std::iter::once(&n).chain(row).enumerate() {
            text.push_str(if place > 0 { "," } else { "" });
            let odd = (n as usize, place) == (odd_row, odd_place);
            let own = text_field(dice, style, place, a, value, edition);
            let field = if odd { dice.pick(ODD_FIELDS).into() } else { own };
            text.push_str(&field);
        }
        text.push_str("\r\n");
    }
    text.push_str(dice.pick(&["", "\x1A", "\x1A\r\n", "\x1A\r\n", "\x1A\r", "\r\n", "\x1A\x1A"]));
    text.into_bytes()
}

/// Bytes that mean something in one of the files, or break it.
const ODD_BYTES: &[u8] = b",\r\n\x1A 019-+.xehAE\x7F\x80\x00\xFF/:";

/// One small change: a byte set, a bit turned, bytes taken out, put in or doubled, the end cut off.
pub fn damage(dice: &mut Dice, data: &mut Vec<u8>) {
    let length = data.len() as u64;
    let at = dice.below(length.max(1)) as usize;
    match dice.below(8) {
        _ if data.is_empty() => data.push(dice.pick(ODD_BYTES)),
        0 | 1 => data[at] = dice.pick(ODD_BYTES),
        2 => data[at] ^= 1 << dice.below(8),
        3 => drop(data.remove(at)),
        4 => data.insert(at, dice.pick(ODD_BYTES)),
        5 => data.truncate(at),
        6 => data.push(dice.pick(ODD_BYTES)),
        _ => {
            let end = (at + 1 + dice.below(40) as usize).min(data.len());
            let piece = data[at..end].to_vec();
            let times = dice.pick(&[1, 1, 2, 60]);
            data.splice(at..at, piece.repeat(times));
        }
    }
}
