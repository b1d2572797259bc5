//! Systematic cases of configurations that are written: every room, spaces before each field, each number of channels and rates, damaged ones, and the longest.

use crate::calls::{rewritten_length, write_config};
use crate::case::Case;
use crate::damage::{at_places, Damage};
use crate::draft::{drafts, Draft, MOST_BYTES};
use crate::rules::cased;
use crate::walk::Walk;

/// Numbers of kinds, and numbers that are none.
const KINDS: [u32; 9] = [0, 1, 2, 3, 4, 255, 256, 65_536, u32::MAX];

/// The words of the kinds, none spelled as it is written.
const WORDS: [&str; 3] = ["ascii", "BINARY", "Binary32"];

/// What may end a file after the fields of the last line, and what may not.
const ENDS: [&[u8]; 9] = [b"\r\n", b"", b"\r", b"\n", b" ", b"0", b"\r\n\r\n", b"\r\n\x1a", b"\r\n "];

/// All cases, in an order that stays.
pub fn walk(walk: &mut Walk) {
    for draft in drafts() {
        rooms(walk, &draft);
        kinds(walk, &draft);
        every_field(walk, &draft);
        widths(walk, &draft);
        pairs(walk, &draft);
        damaged(walk, &draft);
        endings(walk, &draft);
        words(walk, &draft);
    }
    channels_and_rates(walk);
    longest(walk);
    longest_with_spaces(walk);
}

/// A configuration written to a kind that goes by its length, so that the kinds take turns.
pub fn by_turns(cfg: Vec<u8>) -> Case {
    let kind = cfg.len() as u32 % 3;
    write_config(cfg, kind)
}

/// Every room from none to more than is needed, for each kind.
fn rooms(walk: &mut Walk, draft: &Draft) {
    let cfg = draft.spaced().bytes();
    for kind in 0..3 {
        let length = rewritten_length(&cfg, kind);
        for room in (0..length + 4).chain([MOST_BYTES - 1, MOST_BYTES, MOST_BYTES + 1]) {
            walk.case(|| Case::WriteConfig { cfg: cfg.clone(), kind, room });
        }
    }
}

/// Each number of a kind and each that is none, of a configuration that is accepted and of some that are not.
fn kinds(walk: &mut Walk, draft: &Draft) {
    let cfg = draft.bytes();
    for kind in KINDS {
        for length in [0, 1, cfg.len() / 2, cfg.len() - 3, cfg.len() - 2, cfg.len() - 1, cfg.len()] {
            for room in [0, cfg.len(), MOST_BYTES] {
                walk.case(|| Case::WriteConfig { cfg: cfg[..length].to_vec(), kind, room });
            }
        }
    }
}

/// Each field replaced by each value about its rule's boundaries.
fn every_field(walk: &mut Walk, draft: &Draft) {
    for (line, fields) in draft.lines.iter().enumerate() {
        for (field, rule) in fields.iter().map(|field| field.rule).enumerate() {
            for value in rule.values() {
                walk.case(|| by_turns(draft.with(line, field, &value).bytes()));
            }
        }
    }
}

/// The draft with spaces before a field up to so many characters.
fn widened(draft: &Draft, line: usize, field: usize, width: usize) -> Draft {
    let mut draft = draft.clone();
    draft.lines[line][field].widen(width);
    draft
}

/// Every number of spaces before each field, up to one character too many.
fn widths(walk: &mut Walk, draft: &Draft) {
    for (line, fields) in draft.lines.iter().enumerate() {
        for (field, rule) in fields.iter().map(|field| field.rule).enumerate() {
            for width in 1..=rule.most() + 1 {
                walk.case(|| by_turns(widened(draft, line, field, width).bytes()));
            }
        }
    }
}

/// A space before two fields at once, in every pair of places that may have one.
fn pairs(walk: &mut Walk, draft: &Draft) {
    let spaced = draft.spaced();
    let mut places = Vec::new();
    for (line, fields) in spaced.lines.iter().enumerate() {
        let longer = |&field: &usize| fields[field].bytes != draft.lines[line][field].bytes;
        places.extend((0..fields.len()).filter(longer).map(|field| (line, field)));
    }
    for (k, &(line, field)) in places.iter().enumerate() {
        let one = draft.with(line, field, &spaced.lines[line][field].bytes);
        for &(line, field) in &places[k + 1..] {
            walk.case(|| by_turns(one.with(line, field, &spaced.lines[line][field].bytes).bytes()));
        }
    }
}

/// A byte gone, another or one too many, and the end, at every place.
fn damaged(walk: &mut Walk, draft: &Draft) {
    let cfg = draft.bytes();
    let mut damages = vec![Damage::Cut, Damage::Delete];
    damages.extend([0, 10, 13, b' ', b',', b'0'].map(Damage::Replace));
    damages.extend([10, 13, b' ', b',', b'0'].map(Damage::Insert));
    at_places(walk, &cfg, 0..=cfg.len(), &damages, by_turns);
}

/// What may follow the last line's fields, and what may not, for each kind and for none.
fn endings(walk: &mut Walk, draft: &Draft) {
    let cfg = draft.bytes();
    for end in ENDS {
        for kind in 0..4 {
            walk.case(|| write_config([&cfg[..cfg.len() - 2], end].concat(), kind));
        }
    }
}

/// Each kind's word, its letters of either case in every way, written to each kind.
fn words(walk: &mut Walk, draft: &Draft) {
    for word in WORDS {
        for mask in 0..1 << word.len() {
            for kind in 0..3 {
                walk.case(|| write_config(draft.of_kind(&cased(word, mask)).bytes(), kind));
            }
        }
    }
}

/// Numbers of channels and rates, of either edition, with a space before all that may have one: a line that is taken for another is seen.
fn channels_and_rates(walk: &mut Walk) {
    let most = [(96, 256), (96, 0), (0, 256), (95, 255), (1, 256), (96, 1)];
    let few = (0..25).map(|k| (k / 5, k % 5)).filter(|&(a, d)| a + d > 0);
    for (a, d) in few.chain(most) {
        for rates in 0..=8 {
            let last_rows: Vec<u32> = (1..=rates).map(|k| 10 * k).collect();
            for kind in 0..3 {
                walk.case(|| write_config(Draft::plain(a, d, &last_rows).spaced().bytes(), kind));
            }
            let kind = rates % 2;
            walk.case(|| write_config(Draft::plain(a, d, &last_rows).of_1999().spaced().bytes(), kind));
        }
    }
}

/// Configurations and results about the most bytes, of each kind and to each, with and without the last CR LF, and room by turns.
fn longest(walk: &mut Walk) {
    let plain = Draft::plain(96, 256, &[2]);
    for word in WORDS {
        longest_of(walk, &plain.of_kind(word));
        longest_of(walk, &plain.of_1999().of_kind(word));
    }
}

/// The same of one draft.
fn longest_of(walk: &mut Walk, draft: &Draft) {
    let rooms = [0, MOST_BYTES - 1, MOST_BYTES, MOST_BYTES + 1];
    for size in MOST_BYTES - 6..=MOST_BYTES + 3 {
        for cut in [0, 2] {
            for kind in 0..4 {
                let room = rooms[(size + cut / 2 + kind as usize) % rooms.len()];
                walk.case(|| {
                    let mut cfg = draft.clone().filled_up(size);
                    cfg.truncate(size - cut);
                    Case::WriteConfig { cfg, kind, room }
                });
            }
        }
    }
}

/// The same with spaces: what is read is about the most bytes, and the result is shorter.
fn longest_with_spaces(walk: &mut Walk) {
    for size in MOST_BYTES - 6..=MOST_BYTES + 1 {
        walk.case(|| by_turns(Draft::plain(96, 256, &[2]).spaced().filled_up(size)));
    }
}
