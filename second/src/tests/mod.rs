//! Tests by the document: T1 to T12, every number for "no", each reading of an open point.

mod change;
mod config;
mod data;
mod editions;
mod list;
mod missing;
mod no_date;
mod numbers;
mod of_2013;
mod write_config;

use crate::Answer;

/// The recording's configuration, without line ends.
pub const S: [&str; 13] = [
    "Bench 2,R7,2013",
    "2,1A,1D",
    "1,Ia,A,,A,0.5,0,0,-2048,2047,400,1,S",
    "1,Trip,,,0",
    "50",
    "1",
    "1000,2",
    "03/02/2024,09:15:00.000000",
    "03/02/2024,09:15:00.001000",
    "ASCII",
    "1",
    "0,0",
    "0,3",
];

/// T1: the text rows with the end mark.
pub const T1: &[u8] = b"1,0,-3,0\r\n2,1000,300,1\r\n\x1A\r\n";

/// T2: the same as binary.
pub const T2: &[u8] = &[
    0x01, 0, 0, 0, 0, 0, 0, 0, 0xFD, 0xFF, 0, 0, //
    0x02, 0, 0, 0, 0xE8, 0x03, 0, 0, 0x2C, 0x01, 0x01, 0,
];

/// T3: the same as binary32.
pub const T3: &[u8] = &[
    0x01, 0, 0, 0, 0, 0, 0, 0, 0xFD, 0xFF, 0xFF, 0xFF, 0, 0, //
    0x02, 0, 0, 0, 0xE8, 0x03, 0, 0, 0x2C, 0x01, 0, 0, 0x01, 0,
];

/// A "no" with its place.
pub fn no(number: u32, at: u32, field: u32) -> Answer {
    Answer { number, at, field, length: 0 }
}

/// A "yes" with its length.
pub fn yes(length: u32) -> Answer {
    Answer { number: 0, at: 0, field: 0, length }
}

/// Lines, each with CR LF.
pub fn join(lines: &[&str]) -> Vec<u8> {
    let mut bytes = Vec::new();
    for line in lines {
        bytes.extend_from_slice(line.as_bytes());
        bytes.extend_from_slice(b"\r\n");
    }
    bytes
}

/// The recording's configuration with some lines replaced.
pub fn with(changes: &[(usize, &str)]) -> Vec<u8> {
    let mut lines = S;
    for &(line, text) in changes {
        lines[line - 1] = text;
    }
    join(&lines)
}

/// An accepted configuration of so many bytes, its kind spelled so: names of status channels fill it up.
pub fn of_size(size: usize, word: &str) -> Vec<u8> {
    let mut lines: Vec<String> = vec![S[0].into(), "352,96A,256D".into()];
    for i in 1..=96 {
        lines.push(format!("{i:06},{},AB,{},{},1,0,0,-1,1,1,1,p", "n".repeat(128), "c".repeat(64), "u".repeat(32)));
    }
    for i in 1..=256 {
        lines.push(format!("{i},s,,{},1", "c".repeat(60)));
    }
    lines.extend(S[4..9].iter().chain(&[word]).chain(&S[10..]).map(|line| line.to_string()));
    let mut left = size - lines.iter().map(|line| line.len() + 2).sum::<usize>();
    for line in lines[98..354].iter_mut() {
        let more = left.min(120);
        *line = line.replace(",s,", &format!(",s{},", "t".repeat(more)));
        left -= more;
    }
    assert_eq!(left, 0);
    join(&lines.iter().map(String::as_str).collect::<Vec<&str>>())
}
