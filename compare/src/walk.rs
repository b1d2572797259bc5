//! The numbers of cases, and the walk over them that threads share.

use crate::case::Case;
use crate::judge::Expected;
use std::fmt::{self, Display, Formatter};
use std::sync::atomic::{AtomicU64, Ordering};

/// Where a case comes from.
#[derive(Debug, Clone, Copy, PartialEq, Eq)]
pub enum Family {
    Kept,
    Systematic,
    Random,
}

/// The families in the order in which they run.
pub const FAMILIES: [Family; 3] = [Family::Kept, Family::Systematic, Family::Random];

/// A case's number in its family, as `k0`, `s12` or `r345`.
#[derive(Debug, Clone, Copy, PartialEq, Eq)]
pub struct Number {
    pub family: Family,
    pub index: u64,
}

impl Number {
    /// Both parts in one number.
    pub fn packed(self) -> u64 {
        (self.family as u64) << 56 | self.index
    }

    pub fn unpacked(packed: u64) -> Number {
        Number { family: FAMILIES[(packed >> 56) as usize], index: packed << 8 >> 8 }
    }

    /// The number that a word spells.
    pub fn parse(word: &str) -> Option<Number> {
        let family = match word.get(..1)? {
            "k" => Family::Kept,
            "s" => Family::Systematic,
            "r" => Family::Random,
            _ => return None,
        };
        Some(Number { family, index: word[1..].parse().ok()? })
    }
}

impl Display for Number {
    fn fmt(&self, f: &mut Formatter) -> fmt::Result {
        let letter = match self.family {
            Family::Kept => 'k',
            Family::Systematic => 's',
            Family::Random => 'r',
        };
        write!(f, "{letter}{}", self.index)
    }
}

/// Cases that a thread takes at once.
const BLOCK: u64 = 64;

/// Which cases of a walk are made.
#[derive(Clone, Copy)]
pub enum Wanted<'a> {
    /// None: they are only counted.
    Nothing,
    /// The blocks that this thread is the first to ask for.
    Share(&'a AtomicU64),
    /// One case.
    Only(u64),
}

/// What is done with each case that is made.
pub type Visit<'a> = &'a mut dyn FnMut(u64, Case, Option<Expected>);

/// A walk over the cases of a family: each is made only where it is wanted.
pub struct Walk<'a> {
    passed: u64,
    block: u64,
    wanted: Wanted<'a>,
    visit: Visit<'a>,
}

impl<'a> Walk<'a> {
    pub fn new(wanted: Wanted<'a>, visit: Visit<'a>) -> Walk<'a> {
        let block = match wanted {
            Wanted::Share(blocks) => blocks.fetch_add(1, Ordering::Relaxed),
            Wanted::Nothing | Wanted::Only(_) => 0,
        };
        Walk { passed: 0, block, wanted, visit }
    }

    /// How many cases were passed.
    pub fn passed(&self) -> u64 {
        self.passed
    }

    /// Whether the case is wanted. Blocks are given out in their order, so the one that a thread gets lies ahead of it.
    fn wants(&mut self, index: u64) -> bool {
        match self.wanted {
            Wanted::Nothing => false,
            Wanted::Only(only) => index == only,
            Wanted::Share(blocks) => {
                if self.block < index / BLOCK {
                    self.block = blocks.fetch_add(1, Ordering::Relaxed);
                }
                self.block == index / BLOCK
            }
        }
    }

    /// The next case.
    pub fn case(&mut self, make: impl FnOnce() -> Case) {
        self.next(|| (make(), None));
    }

    /// The next case, with what it must answer.
    pub fn known(&mut self, case: &Case, expected: &Expected) {
        self.next(|| (case.clone(), Some(expected.clone())));
    }

    fn next(&mut self, make: impl FnOnce() -> (Case, Option<Expected>)) {
        let index = self.passed;
        self.passed += 1;
        if self.wants(index) {
            let (case, expected) = make();
            (self.visit)(index, case, expected);
        }
    }

    /// So many cases made from their index; those of other threads are passed over at once.
    pub fn indexed(&mut self, count: u64, make: impl Fn(u64) -> Case) {
        if let Wanted::Only(only) = self.wanted {
            (self.visit)(only, make(only), None);
            return;
        }
        for index in 0..count {
            self.case(|| make(index));
        }
    }
}
