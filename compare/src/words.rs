//! How a case is spelled on a line: its bytes, its numbers, and the words that they are read from.

use std::collections::HashMap;
use std::str::FromStr;

/// The word for no numbers at all.
const NONE: &str = "none";

/// The number in the place of a missing sample, and of whatever else there is none of, a date or a line: the lowest of 64 bits, which is spelled x.
pub const MISSING: i64 = i64::MIN;

/// How it is spelled.
const X: &str = "x";

/// Bytes that a file of cases gives a name to.
pub type Names<'a> = HashMap<&'a str, Vec<u8>>;

/// Bytes on a line: a text in quotes where they are one, else hex.
pub fn spelled(bytes: &[u8]) -> String {
    if bytes.iter().all(|byte| matches!(byte, b'\t' | b'\r' | b'\n' | 0x1A | 32..=126)) {
        return format!("\"{}\"", bytes.escape_ascii());
    }
    bytes.iter().map(|byte| format!("{byte:02x}")).collect()
}

/// Numbers on a line, with commas between.
pub fn listed(numbers: &[i64]) -> String {
    if numbers.is_empty() {
        return String::from(NONE);
    }
    let word = |&number: &i64| if number == MISSING { String::from(X) } else { number.to_string() };
    let words: Vec<String> = numbers.iter().map(word).collect();
    words.join(",")
}

/// The bytes that a text stands for, \r, \n, \t and \xHH put as what they are.
fn unescaped(text: &str) -> Option<Vec<u8>> {
    let mut bytes = Vec::new();
    let mut rest = text.bytes();
    while let Some(byte) = rest.next() {
        bytes.push(match byte {
            b'\\' => match rest.next()? {
                b'r' => b'\r',
                b'n' => b'\n',
                b't' => b'\t',
                b'x' => from_hex(std::str::from_utf8(&[rest.next()?, rest.next()?]).ok()?)?[0],
                itself => itself,
            },
            _ => byte,
        });
    }
    Some(bytes)
}

/// The bytes that pairs of hex digits are.
fn from_hex(word: &str) -> Option<Vec<u8>> {
    let pairs = (0..word.len()).step_by(2).map(|at| word.get(at..at + 2));
    pairs.map(|pair| u8::from_str_radix(pair?, 16).ok()).collect()
}

/// A word without the `*N` at its end, and N; 1 where there is none.
fn repeated(word: &str) -> Option<(&str, usize)> {
    let end = word.rfind('"').map_or(word.find('*').unwrap_or(word.len()), |quote| quote + 1);
    match word.split_at(end) {
        (word, "") => Some((word, 1)),
        (word, times) => Some((word, times.strip_prefix('*')?.parse().ok()?)),
    }
}

/// The numbers of a word, as `0,-3,0`, `0,x,1` or `1*256`.
fn numbers(word: &str) -> Option<Vec<i64>> {
    if word == NONE {
        return Some(Vec::new());
    }
    let (word, times) = repeated(word)?;
    let number = |number: &str| if number == X { Some(MISSING) } else { number.parse().ok() };
    let numbers: Option<Vec<i64>> = word.split(',').map(number).collect();
    Some(numbers?.repeat(times))
}

/// How long the word is that a line begins with. Spaces within quotes are part of it.
fn word_length(line: &str) -> usize {
    let (mut quoted, mut escaped) = (false, false);
    let ends = |byte| {
        quoted ^= byte == b'"' && !escaped;
        escaped = byte == b'\\' && !escaped;
        byte == b' ' && !quoted
    };
    line.bytes().position(ends).unwrap_or(line.len())
}

/// The words of a line, read one after the other.
pub struct Words<'a, 'n> {
    rest: &'a str,
    names: &'n Names<'a>,
}

impl<'a, 'n> Words<'a, 'n> {
    pub fn of(line: &'a str, names: &'n Names<'a>) -> Words<'a, 'n> {
        Words { rest: line.trim_start(), names }
    }

    fn peek(&self) -> Option<&'a str> {
        let word = &self.rest[..word_length(self.rest)];
        (!word.is_empty()).then_some(word)
    }

    /// The next word.
    pub fn word(&mut self) -> Option<&'a str> {
        let word = self.peek()?;
        self.rest = self.rest[word.len()..].trim_start();
        Some(word)
    }

    /// Whether the next word is this one, which is then read.
    pub fn is(&mut self, word: &str) -> bool {
        self.peek() == Some(word) && self.word().is_some()
    }

    pub fn ended(&self) -> bool {
        self.rest.is_empty()
    }

    pub fn number<T: FromStr>(&mut self) -> Option<T> {
        self.word()?.parse().ok()
    }

    /// The words from here on that can be read so, one at least, put together.
    fn together<T>(&mut self, read: impl Fn(&str) -> Option<Vec<T>>) -> Option<Vec<T>> {
        let mut all = read(self.word()?)?;
        while let Some(more) = self.peek().and_then(&read) {
            all.extend(more);
            self.word();
        }
        Some(all)
    }

    /// Numbers, with commas or spaces between.
    pub fn numbers(&mut self) -> Option<Vec<i64>> {
        self.together(numbers)
    }

    /// Bytes, in pieces: a text in quotes, hex, or a name.
    pub fn bytes(&mut self) -> Option<Vec<u8>> {
        let names = self.names;
        self.together(|word| {
            let (word, times) = repeated(word)?;
            let piece = match word.strip_prefix('"') {
                Some(text) => unescaped(text.strip_suffix('"')?)?,
                None => names.get(word).cloned().or_else(|| from_hex(word))?,
            };
            Some(piece.repeat(times))
        })
    }
}
