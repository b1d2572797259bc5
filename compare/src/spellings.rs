//! Systematic cases of how a text row spells its numbers: spaces, signs, zeros and digits in every order and of every length.

use crate::calls::four_calls;
use crate::case::Layout;
use crate::damage::Damage;
use crate::files::{text, Recording};
use crate::walk::Walk;

/// A field of a text: its row, counted from 0, its most characters, digits that begin with those of a right number, and numbers at its edges.
struct Place {
    layout: Layout,
    row: usize,
    field: usize,
    most: usize,
    digits: &'static str,
    edges: &'static [&'static str],
}

/// A number in each row, a time, a sample with others behind it, and one that ends its row and the file; two samples of 1999 in the same places.
#[rustfmt::skip]
const PLACES: [Place; 7] = [
    Place { layout: Layout::new(1, 1, 2, 0), row: 0, field: 0, most: 10, digits: "12345678901", edges: EDGES },
    Place { layout: Layout::new(1, 1, 2, 0), row: 1, field: 0, most: 10, digits: "23456789012", edges: EDGES },
    Place { layout: Layout::new(1, 1, 2, 0), row: 0, field: 1, most: 13, digits: "12345678901234", edges: EDGES },
    Place { layout: Layout::new(2, 1, 2, 0), row: 0, field: 2, most: 13, digits: "12345678901234", edges: EDGES },
    Place { layout: Layout::new(2, 0, 2, 0), row: 1, field: 3, most: 13, digits: "12345678901234", edges: EDGES },
    Place { layout: Layout::of(2, 1, 2, (0, 1999)), row: 0, field: 2, most: 13, digits: "99999999999999", edges: EDGES_OF_1999 },
    Place { layout: Layout::of(2, 0, 2, (0, 1999)), row: 1, field: 3, most: 13, digits: "12345678901234", edges: EDGES_OF_1999 },
];

/// Numbers at the edges of a sample and of a time.
#[rustfmt::skip]
const EDGES: &[&str] = &[
    "2147483647", "2147483648", "+2147483647", "+2147483648", "-2147483647", "-2147483648", "-2147483649",
    "4294967294", "4294967295", "4294967296", "+4294967295", "-4294967295", "4294967297", "9999999999",
];

/// Numbers at the edges of a sample of 1999.
#[rustfmt::skip]
const EDGES_OF_1999: &[&str] = &[
    "99998", "99999", "100000", "+99998", "+99999", "+100000", "-99998", "-99999", "-100000", "32767", "32768", "-32768",
];

/// Numbers that get a sign, a space or a zero somewhere.
const BASES: [&str; 4] = ["  -0012", "   +000012345", "            7", "1234567"];

/// All cases, in an order that stays.
pub fn walk(walk: &mut Walk) {
    for place in &PLACES {
        let longest = place.most + 1;
        let mut list = patterns(longest, place.digits);
        list.extend(strings(4));
        list.extend(behind_spaces_and_zeros(place.edges, longest));
        list.extend(disturbed());
        list.sort();
        list.dedup();
        let lines = Recording::plain(place.layout).lines();
        for (turn, spelling) in list.iter().enumerate() {
            let file = || {
                let mut lines = lines.clone();
                lines[place.row][place.field].clone_from(spelling);
                text(&lines, b"")
            };
            four_calls(walk, place.layout, turn, &file);
        }
    }
}

/// Spaces, a sign or none, zeros and then digits: all of at most so many characters.
fn patterns(most: usize, digits: &str) -> Vec<String> {
    let mut list = Vec::new();
    for sign in ["", "+", "-"] {
        for spaces in 0..=most - sign.len() {
            let left = most - sign.len() - spaces;
            for zeros in 0..=left {
                for count in 0..=left - zeros {
                    list.push(format!("{:spaces$}{sign}{:0<zeros$}{}", "", "", &digits[..count]));
                }
            }
        }
    }
    list
}

/// Every string of up to so many spaces, signs, zeros and sevens.
fn strings(most: usize) -> Vec<String> {
    let mut list = vec![String::new()];
    let mut longest = list.clone();
    for _ in 0..most {
        longest = longest.iter().flat_map(|string| " +-07".chars().map(move |end| format!("{string}{end}"))).collect();
        list.extend_from_slice(&longest);
    }
    list
}

/// Each edge behind spaces and, after its sign, zeros: all of at most so many characters.
fn behind_spaces_and_zeros(edges: &[&str], most: usize) -> Vec<String> {
    let mut list = Vec::new();
    for edge in edges {
        let (sign, digits) = edge.split_at(usize::from(edge.starts_with(['+', '-'])));
        for spaces in 0..=most - edge.len() {
            for zeros in 0..=most - edge.len() - spaces {
                list.push(format!("{:spaces$}{sign}{:0<zeros$}{digits}", "", ""));
            }
        }
    }
    list
}

/// Numbers with a sign, a space or a zero more, or in place of another character, at every place.
fn disturbed() -> Vec<String> {
    let damages = [b'+', b'-', b' ', b'0'].map(|byte| [Damage::Insert(byte), Damage::Replace(byte)]);
    let mut list = Vec::new();
    for base in BASES {
        for at in 0..=base.len() {
            for damage in damages.as_flattened() {
                list.push(String::from_utf8_lossy(&damage.at(base.as_bytes(), at)).into_owned());
            }
        }
    }
    list
}
