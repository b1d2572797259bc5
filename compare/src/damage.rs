//! Damage to bytes, whatever they are.

use crate::case::Case;
use crate::walk::Walk;
use dice::Dice;
use std::ops::RangeInclusive;

/// Bytes that mean something to some rule, or lie beside one that does.
pub const BYTES: [u8; 22] =
    [0, 1, 9, 10, 13, 26, 31, 32, b',', b'+', b'-', b'.', b'/', b'0', b'1', b'9', b':', b'A', b'x', 126, 127, 255];

/// The bytes without so many from a place on, and others put there.
pub fn spliced(bytes: &[u8], at: usize, gone: usize, put: &[u8]) -> Vec<u8> {
    let rest = &bytes[(at + gone).min(bytes.len())..];
    [&bytes[..at], put, rest].concat()
}

/// One damage to bytes at one place.
#[derive(Clone, Copy)]
pub enum Damage {
    Cut,
    Delete,
    Replace(u8),
    Insert(u8),
    Flip(u8),
}

impl Damage {
    /// The damaged bytes; the place is at most their length.
    pub fn at(self, bytes: &[u8], at: usize) -> Vec<u8> {
        match self {
            Damage::Cut => bytes[..at].to_vec(),
            Damage::Delete => spliced(bytes, at, 1, &[]),
            Damage::Replace(byte) => spliced(bytes, at, 1, &[byte]),
            Damage::Insert(byte) => spliced(bytes, at, 0, &[byte]),
            Damage::Flip(bit) => match bytes.get(at) {
                Some(byte) => spliced(bytes, at, 1, &[byte ^ (1 << bit)]),
                None => bytes.to_vec(),
            },
        }
    }

    /// Every damage that is tried at each place.
    pub fn every() -> Vec<Damage> {
        let mut list = vec![Damage::Cut, Damage::Delete];
        list.extend(BYTES.map(Damage::Replace));
        list.extend(BYTES.map(Damage::Insert));
        list
    }

    /// Damages of a bit each, for bytes that are numbers.
    pub fn flips() -> Vec<Damage> {
        (0..8).map(Damage::Flip).collect()
    }

    fn random(dice: &mut Dice) -> Damage {
        let byte = if dice.once_in(4) { dice.below(256) as u8 } else { dice.pick(&BYTES) };
        match dice.below(16) {
            0 => Damage::Cut,
            1..=3 => Damage::Delete,
            4..=8 => Damage::Replace(byte),
            9..=12 => Damage::Insert(byte),
            _ => Damage::Flip(dice.below(8) as u8),
        }
    }
}

/// Every damage of a list at every place of some.
pub fn at_places(
    walk: &mut Walk,
    bytes: &[u8],
    places: RangeInclusive<usize>,
    damages: &[Damage],
    make: impl Fn(Vec<u8>) -> Case,
) {
    for at in places {
        for damage in damages {
            walk.case(|| make(damage.at(bytes, at)));
        }
    }
}

/// A random damage at a random place: of a byte, or of a part that is doubled, dropped or swapped with the next.
pub fn random(dice: &mut Dice, bytes: &[u8]) -> Vec<u8> {
    if dice.below(8) > 0 {
        let at = dice.index(bytes.len() + 1);
        return Damage::random(dice).at(bytes, at);
    }
    let start = dice.index(bytes.len() + 1);
    let middle = (start + dice.index(20)).min(bytes.len());
    let end = (middle + dice.index(20)).min(bytes.len());
    let (first, second) = (&bytes[start..middle], &bytes[middle..end]);
    match dice.below(3) {
        0 => spliced(bytes, start, 0, first),
        1 => spliced(bytes, start, first.len(), &[]),
        _ => spliced(bytes, start, end - start, &[second, first].concat()),
    }
}
