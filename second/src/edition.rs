//! The editions: what differs between a recording of 2013 and one of 1999.

use crate::data::Kind;

/// The edition of a recording, which its configuration's year names.
#[derive(Debug, Clone, Copy, PartialEq, Eq)]
pub enum Edition {
    Year2013,
    Year1999,
}

impl Edition {
    /// The edition of a year; another year is of none.
    pub fn of(year: u32) -> Option<Edition> {
        match year {
            2013 => Some(Edition::Year2013),
            1999 => Some(Edition::Year1999),
            _ => None,
        }
    }

    /// The year that names it.
    pub fn year(self) -> u32 {
        match self {
            Edition::Year2013 => 2013,
            Edition::Year1999 => 1999,
        }
    }

    /// Whether it has a kind of data file: 1999 has ASCII and binary only.
    pub fn has(self, kind: Kind) -> bool {
        match self {
            Edition::Year2013 => true,
            Edition::Year1999 => kind != Kind::Binary32,
        }
    }
}
