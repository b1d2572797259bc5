//! The configuration written for a kind. It is read once, and where it has to be cut is noted; what lies between the
//! cuts is copied.

use super::config::{kinds, read, Notes, MOST_BYTES, PLACES};
use super::{answer, no, Answer};

/// The kinds' words, by number.
const WORDS: [&[u8]; 3] = [b"ASCII", b"binary", b"binary32"];

/// The most numbers and codes: 3 counts, 8 numbers in 96 analog lines, an index in 256 status lines, the frequency, the
/// number of rates, 8 rates with their last rows, the multiplier and 2 codes.
const MOST_CUTS: usize = 3 + 8 * 96 + 256 + 1 + 1 + 2 * 8 + 1 + 2;

/// Spaces that are left out. An offset in a configuration has 16 bits; with as many for their number a list of cuts has
/// no gaps and is made at once.
#[derive(Clone, Copy)]
struct Cut {
    start: u16,
    spaces: u16,
}

/// The cuts in their order, those before the kind's word counted apart, and where that word stands.
struct Cuts {
    list: [Cut; MOST_CUTS],
    count: usize,
    before_word: usize,
    all_spaces: usize,
    word: (usize, usize),
}

impl Notes for Cuts {
    fn spaces(&mut self, start: usize, count: usize) {
        self.list[self.count] = Cut { start: start as u16, spaces: count as u16 };
        self.count += 1;
        self.all_spaces += count;
    }

    fn word(&mut self, start: usize, end: usize) {
        self.before_word = self.count;
        self.word = (start, end);
    }
}

/// Copies a part of a configuration, from one offset to another, without what is cut out: how many bytes were written.
fn copy_part(cfg: &[u8], (from, to): (usize, usize), cuts: &[Cut], out: &mut [u8]) -> usize {
    let (mut from, mut at) = (from, 0);
    let mut copy = |piece: &[u8]| {
        out[at..at + piece.len()].copy_from_slice(piece);
        at += piece.len();
    };
    for cut in cuts {
        let start = usize::from(cut.start);
        copy(&cfg[from..start]);
        from = start + usize::from(cut.spaces);
    }
    copy(&cfg[from..to]);
    at
}

impl Cuts {
    fn new() -> Cuts {
        let list = [Cut { start: 0, spaces: 0 }; MOST_CUTS];
        Cuts { list, count: 0, before_word: 0, all_spaces: 0, word: (0, 0) }
    }

    /// Writes the configuration, which fills `out`.
    fn put(&self, cfg: &[u8], word: &[u8], out: &mut [u8]) {
        let (before, after) = self.list[..self.count].split_at(self.before_word);
        let (start, end) = self.word;
        let mut at = copy_part(cfg, (0, start), before, out);
        out[at..at + word.len()].copy_from_slice(word);
        at += word.len();
        at += copy_part(cfg, (end, cfg.len()), after, &mut out[at..]);
        out[at..].copy_from_slice(missing_end(cfg));
    }

    fn length(&self, cfg: &[u8], word: &[u8]) -> usize {
        let (start, end) = self.word;
        cfg.len() - self.all_spaces - (end - start) + word.len() + missing_end(cfg).len()
    }
}

/// The line end that the last line gets where it ended with the file.
fn missing_end(cfg: &[u8]) -> &'static [u8] {
    if cfg.ends_with(b"\n") {
        return b"";
    }
    b"\r\n"
}

/// Writes a configuration: the reader's refusals, then 10, 1 for a result too long, 17.
pub fn write_config(cfg: &[u8], kind: u32, out: &mut [u8]) -> Answer {
    let (mut cuts, mut places) = (Cuts::new(), [0; PLACES]);
    answer(read(cfg, &mut places, &mut cuts).and_then(|_| {
        let words = &WORDS[..kinds(places[34] == 1999)];
        put_config(cfg, &cuts, words.get(kind as usize), out)
    }))
}

fn put_config(cfg: &[u8], cuts: &Cuts, word: Option<&&[u8]>, out: &mut [u8]) -> Result<usize, Answer> {
    let Some(word) = word else { return Err(no(10, 0, 0)) };
    let length = cuts.length(cfg, word);
    if length > MOST_BYTES {
        return Err(no(1, 0, 0));
    }
    let Some(out) = out.get_mut(..length) else { return Err(no(17, 0, 0)) };
    cuts.put(cfg, word, out);
    Ok(length)
}
