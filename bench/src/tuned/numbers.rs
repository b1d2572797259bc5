//! Decimal numbers: how long their plain form is, and writing it.

use super::MISSING;

/// Two digits at a time.
const PAIRS: [u8; 200] = pairs();

const fn pairs() -> [u8; 200] {
    let mut table = [0; 200];
    let mut number = 0;
    while number < 100 {
        table[2 * number] = b'0' + (number / 10) as u8;
        table[2 * number + 1] = b'0' + (number % 10) as u8;
        number += 1;
    }
    table
}

/// Powers of ten, the first place set so that 0 has one digit.
pub const POWERS: [u32; 10] = [0, 10, 100, 1_000, 10_000, 100_000, 1_000_000, 10_000_000, 100_000_000, 1_000_000_000];

/// How many digits the plain form has: the bits give it but for one, which the power of ten settles.
#[inline(always)]
pub fn digits(value: u32) -> usize {
    let near = (((32 - (value | 1).leading_zeros()) * 1233) >> 12) as usize;
    near + usize::from(value >= POWERS[near])
}

/// How long the plain form of a number is, its minus included.
#[inline(always)]
pub fn number_length(number: i32) -> usize {
    usize::from(number < 0) + digits(number.unsigned_abs())
}

/// How long the plain form of a sample is, that of a missing one being given.
#[inline(always)]
pub fn sample_length(sample: i32, missing: usize) -> usize {
    match sample {
        MISSING => missing,
        number => number_length(number),
    }
}

/// Writes the plain form so that it fills `place`, from its last digit.
#[inline(always)]
pub fn put_digits(mut value: u32, place: &mut [u8]) {
    let mut end = place.len();
    while value >= 100 {
        let pair = 2 * (value % 100) as usize;
        value /= 100;
        place[end - 2..end].copy_from_slice(&PAIRS[pair..pair + 2]);
        end -= 2;
    }
    if value >= 10 {
        let pair = 2 * value as usize;
        place[end - 2..end].copy_from_slice(&PAIRS[pair..pair + 2]);
    } else {
        place[end - 1] = b'0' + value as u8;
    }
}
