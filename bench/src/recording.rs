//! The recordings that are measured: the same ones in every run.

use bench::{filled_up, tuned, Answer, LayoutNumbers};
use dice::Dice;

/// Rows kept in memory as a source for writing.
const KEPT_ROWS: u32 = 1_000;

/// The most bytes of a configuration.
const MOST_CFG_BYTES: usize = 65_536;

/// One layout's configuration, its data file in all three kinds, and some of its rows.
pub struct Recording {
    pub a: u32,
    pub d: u32,
    pub rows: u32,
    /// Rows asked for; more than `rows` where memory is short.
    pub wanted_rows: u32,
    pub cfg: Vec<u8>,
    /// Of the largest layout, which alone has room for it: a configuration of the most bytes that there may be.
    pub longest_cfg: Option<Vec<u8>>,
    /// By the kind's number: ASCII, binary, binary32.
    pub files: [Vec<u8>; 3],
    pub kept: Vec<Vec<i64>>,
    /// The rows that are shown.
    pub shown: Vec<u32>,
}

/// The time of row n, rising.
pub fn time(n: u32) -> i64 {
    i64::from(n) * 208
}

/// Bytes of a file of each kind, the text as long as it can get with samples of 16 bits.
fn most_bytes(a: u32, d: u32, rows: u32) -> [u64; 3] {
    let [a, d, rows] = [a, d, rows].map(u64::from);
    let words = 2 * d.div_ceil(16);
    [rows * (7 + 11 + 7 * a + 2 * d + 2) + 3, rows * (8 + 2 * a + words), rows * (8 + 4 * a + words)]
}

/// The most rows, by halving, for which three files and room for the longest of them once more fit into `memory` bytes.
fn rows_that_fit(a: u32, d: u32, wanted: u32, memory: u64) -> u32 {
    let mut rows = wanted;
    loop {
        let [text, binary, binary32] = most_bytes(a, d, rows);
        if 2 * text + binary + binary32 <= memory || rows <= 1_000 {
            return rows;
        }
        rows /= 2;
    }
}

impl Recording {
    /// Room for any file of this layout and number of rows, and for any configuration.
    pub fn most_bytes(&self) -> usize {
        most_bytes(self.a, self.d, self.rows).into_iter().fold(MOST_CFG_BYTES, |most, bytes| most.max(bytes as usize))
    }

    /// The layout of its file of a kind, by the rules of an edition.
    pub fn layout(&self, kind: u32, edition: u32) -> LayoutNumbers {
        LayoutNumbers { a: self.a, d: self.d, rows: self.rows, kind, edition }
    }

    /// Makes a recording, of fewer rows where `memory` bytes do not hold it. All rows are to be shown where there are
    /// at most `most_shown`; else the first, the middle and the last.
    pub fn new(a: u32, d: u32, wanted_rows: u32, memory: u64, most_shown: u32) -> Recording {
        let rows = rows_that_fit(a, d, wanted_rows, memory);
        let shown = if rows <= most_shown { (1..=rows).collect() } else { vec![1, rows.div_ceil(2), rows] };
        let mut files = most_bytes(a, d, rows).map(|bytes| vec![0xEE; bytes as usize]);
        let mut ends = [0; 3];
        let mut kept = Vec::new();
        let mut dice = Dice::of(u64::from(a), u64::from(d));
        let mut row = vec![0; (1 + a + d) as usize];
        for n in 1..=rows {
            fill_row(&mut dice, n, a as usize, &mut row);
            for (kind, (file, end)) in (0..).zip(files.iter_mut().zip(&mut ends)) {
                let layout = LayoutNumbers { a, d, rows, kind, edition: 2013 };
                *end += written(tuned::write_row(layout, n, &row, &mut file[*end..]));
            }
            if n <= KEPT_ROWS {
                kept.push(row.clone());
            }
        }
        files[0][ends[0]..ends[0] + 3].copy_from_slice(&[0x1A, 0x0D, 0x0A]);
        ends[0] += 3;
        for (file, end) in files.iter_mut().zip(ends) {
            file.truncate(end);
        }
        let cfg = configuration(a, d, rows);
        let longest_cfg = ((a, d) == (96, 256)).then(|| longest(&cfg));
        Recording { a, d, rows, wanted_rows, cfg, longest_cfg, files, kept, shown }
    }
}

/// Samples of 16 bits in sizes that vary, none of them the lowest pattern, which is a missing one; statuses of any bit.
fn fill_row(dice: &mut Dice, n: u32, a: usize, row: &mut [i64]) {
    row[0] = time(n);
    for place in &mut row[1..1 + a] {
        let word = dice.word();
        *place = i64::from((word as i16).max(-32_767) >> (word >> 16 & 7));
    }
    for place in &mut row[1 + a..] {
        *place = dice.below(2) as i64;
    }
}

fn written(answer: Answer) -> usize {
    assert_eq!(answer.number, 0, "a row made to fit was refused");
    answer.length as usize
}

fn configuration(a: u32, d: u32, rows: u32) -> Vec<u8> {
    let mut lines = vec!["Substation North,Relay 7,2013".to_string(), format!("{},{a}A,{d}D", a + d)];
    for index in 1..=a {
        let scale = 0.012_207 * f64::from(index);
        lines.push(format!("{index},Current {index},A,Line {index},A,{scale:.6},0,0.5,-32767,32767,400.0,1.0,S"));
    }
    for index in 1..=d {
        lines.push(format!("{index},Trip {index},,Breaker {index},{}", index % 2));
    }
    for line in ["50.0", "1", &format!("4800.0,{rows}"), "03/02/2024,09:15:00.000000", "03/02/2024,09:15:00.001000"] {
        lines.push(line.to_string());
    }
    lines.extend(["BINARY", "1.0", "+1h00,+1h00", "0,3", ""].map(str::to_string));
    lines.join("\r\n").into_bytes()
}

/// The configuration with a space before each real of its channels, and with long names and circuits, so that it has
/// the most bytes.
fn longest(cfg: &[u8]) -> Vec<u8> {
    let spaced = |line: &str| {
        let mut fields: Vec<String> = line.split(',').map(str::to_string).collect();
        if fields.len() == 13 {
            fields[5..12].iter_mut().for_each(|real| real.insert(0, ' '));
        }
        fields.join(",")
    };
    let lines: Vec<String> = String::from_utf8_lossy(cfg).split("\r\n").map(spaced).collect();
    filled_up(lines.join("\r\n").as_bytes(), MOST_CFG_BYTES)
}
