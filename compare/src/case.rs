//! A case: one call with its arguments, and how it is spelled on a line.

use crate::words::{listed, spelled, Words};
use second::LayoutNumbers;
use std::fmt::{self, Display, Formatter};

/// The places in which a configuration is shown.
pub const CONFIG_PLACES: usize = 35;

/// A layout as it is given to a call, out of the sizes too.
#[derive(Debug, Clone, Copy, PartialEq, Eq)]
pub struct Layout {
    pub a: u32,
    pub d: u32,
    pub rows: u32,
    pub kind: u32,
    pub edition: u32,
}

impl Layout {
    /// A layout of the 2013 edition.
    pub const fn new(a: u32, d: u32, rows: u32, kind: u32) -> Layout {
        Layout { a, d, rows, kind, edition: 2013 }
    }

    /// A layout of a kind with its edition.
    pub const fn of(a: u32, d: u32, rows: u32, (kind, edition): (u32, u32)) -> Layout {
        Layout { a, d, rows, kind, edition }
    }

    /// The same of another edition.
    pub const fn of_edition(self, edition: u32) -> Layout {
        Layout { edition, ..self }
    }

    /// The same of another kind.
    pub fn of_kind(self, kind: u32) -> Layout {
        Layout { kind, ..self }
    }

    /// The numbers as the second program takes them.
    pub fn numbers(self) -> LayoutNumbers {
        let Layout { a, d, rows, kind, edition } = self;
        LayoutNumbers { a, d, rows, kind, edition }
    }

    /// Places of a row: time, A samples, D statuses; of a layout out of the sizes, some few.
    pub fn places(&self) -> usize {
        1 + self.a.min(100) as usize + self.d.min(300) as usize
    }
}

/// One call with its arguments; `places` and `room` are the length of the buffer lent for the answer.
#[derive(Debug, Clone, PartialEq, Eq)]
pub enum Case {
    Config { cfg: Vec<u8>, places: usize },
    WriteConfig { cfg: Vec<u8>, kind: u32, room: usize },
    Check { layout: Layout, file: Vec<u8> },
    Row { layout: Layout, file: Vec<u8>, n: u32, places: usize },
    WriteRow { layout: Layout, n: u32, row: Vec<i64>, room: usize },
    Length { layout: Layout, file: Vec<u8>, new_kind: u32 },
    Change { layout: Layout, file: Vec<u8>, new_kind: u32, room: usize },
    Reason { number: u32, room: usize },
}

/// The names of the calls, in the order of `Case::call`.
pub const CALLS: [&str; 8] = ["config", "write_config", "check", "row", "write_row", "length", "change", "reason"];

/// The refusals that each call can give, in the order of `CALLS`.
pub const POSSIBLE: [&[u32]; 8] = [
    &[1, 2, 3, 4, 5, 6, 7, 8, 9, 17],
    &[1, 2, 3, 4, 5, 6, 7, 8, 9, 10, 17],
    &[10, 11, 12, 13, 14],
    &[10, 11, 12, 13, 14, 15, 17],
    &[10, 15, 16, 17],
    &[10, 11, 12, 13, 14, 16],
    &[10, 11, 12, 13, 14, 16, 17],
    &[10, 17],
];

impl Case {
    /// The call's index in `CALLS`.
    pub fn call(&self) -> usize {
        match self {
            Case::Config { .. } => 0,
            Case::WriteConfig { .. } => 1,
            Case::Check { .. } => 2,
            Case::Row { .. } => 3,
            Case::WriteRow { .. } => 4,
            Case::Length { .. } => 5,
            Case::Change { .. } => 6,
            Case::Reason { .. } => 7,
        }
    }

    /// The layout, where the call takes one.
    pub fn layout(&self) -> Option<Layout> {
        match self {
            Case::Check { layout, .. } | Case::Row { layout, .. } | Case::WriteRow { layout, .. } => Some(*layout),
            Case::Length { layout, .. } | Case::Change { layout, .. } => Some(*layout),
            Case::Config { .. } | Case::WriteConfig { .. } | Case::Reason { .. } => None,
        }
    }

    /// The kind that something is written for, where the call takes one beside a layout or a configuration.
    pub fn new_kind(&self) -> Option<u32> {
        match self {
            Case::WriteConfig { kind, .. } => Some(*kind),
            Case::Length { new_kind, .. } | Case::Change { new_kind, .. } => Some(*new_kind),
            _ => None,
        }
    }

    /// Whether the case is about a recording of 1999: its layout says so, or the first line of its configuration.
    pub fn is_of_1999(&self) -> bool {
        match self {
            Case::Config { cfg, .. } | Case::WriteConfig { cfg, .. } => {
                cfg.split(|&byte| byte == b'\r').next().is_some_and(|line| line.ends_with(b",1999"))
            }
            _ => self.layout().is_some_and(|layout| layout.edition == 1999),
        }
    }

    /// Bytes of the buffer lent for the answer.
    pub fn room(&self) -> usize {
        match self {
            Case::Config { places, .. } | Case::Row { places, .. } => 8 * places,
            Case::WriteConfig { room, .. } | Case::WriteRow { room, .. } => *room,
            Case::Change { room, .. } | Case::Reason { room, .. } => *room,
            Case::Check { .. } | Case::Length { .. } => 0,
        }
    }

    /// Bytes of that buffer that a "yes" of this length reports, and so changes.
    pub fn reported(&self, length: u32) -> usize {
        match self {
            Case::Config { .. } => 8 * CONFIG_PLACES,
            Case::Row { layout, .. } => 8 * layout.places(),
            Case::Check { .. } | Case::Length { .. } => 0,
            Case::WriteConfig { .. } | Case::WriteRow { .. } => length as usize,
            Case::Change { .. } | Case::Reason { .. } => length as usize,
        }
    }
}

impl Display for Layout {
    fn fmt(&self, f: &mut Formatter) -> fmt::Result {
        write!(f, "{} {} {} {} {}", self.a, self.d, self.rows, self.kind, self.edition)
    }
}

/// A case as a line of kept/ has it: its numbers stand before its bytes, a layout as A, D, rows, kind and edition.
impl Display for Case {
    fn fmt(&self, f: &mut Formatter) -> fmt::Result {
        write!(f, "{} ", CALLS[self.call()])?;
        match self {
            Case::Config { cfg, places } => write!(f, "{places} {}", spelled(cfg)),
            Case::WriteConfig { cfg, kind, room } => write!(f, "{kind} {room} {}", spelled(cfg)),
            Case::Check { layout, file } => write!(f, "{layout} {}", spelled(file)),
            Case::Row { layout, file, n, places } => write!(f, "{layout} {n} {places} {}", spelled(file)),
            Case::WriteRow { layout, n, row, room } => write!(f, "{layout} {n} {room} {}", listed(row)),
            Case::Length { layout, file, new_kind } => write!(f, "{layout} {new_kind} {}", spelled(file)),
            Case::Change { layout, file, new_kind, room } => write!(f, "{layout} {new_kind} {room} {}", spelled(file)),
            Case::Reason { number, room } => write!(f, "{number} {room}"),
        }
    }
}

/// The layout that a line gives.
pub fn parse_layout(w: &mut Words) -> Option<Layout> {
    let [a, d, rows, kind, edition] = [w.number()?, w.number()?, w.number()?, w.number()?, w.number()?];
    Some(Layout { a, d, rows, kind, edition })
}

/// The case that a line spells, up to what follows its bytes or its row; nothing if it is misspelled.
pub fn parse(w: &mut Words) -> Option<Case> {
    Some(match w.word()? {
        "config" => Case::Config { places: w.number()?, cfg: w.bytes()? },
        "write_config" => Case::WriteConfig { kind: w.number()?, room: w.number()?, cfg: w.bytes()? },
        "check" => Case::Check { layout: parse_layout(w)?, file: w.bytes()? },
        "row" => Case::Row { layout: parse_layout(w)?, n: w.number()?, places: w.number()?, file: w.bytes()? },
        "write_row" => {
            Case::WriteRow { layout: parse_layout(w)?, n: w.number()?, room: w.number()?, row: w.numbers()? }
        }
        "length" => Case::Length { layout: parse_layout(w)?, new_kind: w.number()?, file: w.bytes()? },
        "change" => {
            Case::Change { layout: parse_layout(w)?, new_kind: w.number()?, room: w.number()?, file: w.bytes()? }
        }
        "reason" => Case::Reason { number: w.number()?, room: w.number()? },
        _ => return None,
    })
}
