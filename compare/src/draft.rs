//! Configurations as lines of fields, each field with its rule, so that one can be changed by itself.

use crate::rules::{all_lines, Rule, LIMITS};
use dice::Dice;

/// The most bytes of a configuration.
pub const MOST_BYTES: usize = 65_536;

/// One recording, whole: the one that the rules give.
pub const RECORDING: &str = "Bench 2,R7,2013
2,1A,1D
1,Ia,A,,A,0.5,0,0,-2048,2047,400,1,S
1,Trip,,,0
50
1
1000,2
03/02/2024,09:15:00.000000
03/02/2024,09:15:00.001000
ASCII
1
0,0
0,3";

/// Three analog and two status channels, three rates, every field filled, spaces and zeros before the numbers.
pub const FILLED: &str = "Station of the north,Device no. 9,2013
  0005,0003A, 002D
1,IL1,A,Line 1 bay,kA, +1.25E-03,-0.5,  0,-32767,32767.0,0400,1.0,p
 02,IL2,B,Line 1 bay,kA,1e0,0,00.5E+1,-9.9E9,9.9E9,400,1,P
000003,IL3,C,Line 1 bay,V,-1,-1,-1,  0,  0,1E999,-1E-999,s
     1,Trip of the breaker,AB,Line 1 bay,0
2,~!#$%&'()*+-./:;<=>?@[]^_`{|}\",~,\\,1
 060.00
003
 4800.5,0000000100
1E3,  200
0.0001,1000000
29/02/2000,23:59:59.999999999
01/03/2000,00:00:00.0000000
BiNaRy32
 1E-3
 +5h30,-14h59
f,2";

/// No analog channel, one status channel, no rates, a local code of x.
pub const LEAST: &str = ",,2013
1,0A,1D
1,n,,,1

0
0,1
31/12/9999,00:00:00.000000
01/01/1900,00:00:00.000000
binary
1
0,x
B,0";

/// A date of zeros: with a time of zeros it is no date.
pub const ZERO_DATE: &str = "00/00/0000";

/// The configurations that cases are made from, one of them without dates, and the same of 1999.
pub fn drafts() -> Vec<Draft> {
    let without_dates = Draft::of(RECORDING).without_dates();
    let of_2013 = [Draft::of(RECORDING), Draft::of(FILLED), Draft::of(LEAST), without_dates];
    let of_1999 = of_2013.clone().map(|draft| draft.of_1999());
    of_2013.into_iter().chain(of_1999).collect()
}

/// One field of a line.
#[derive(Clone)]
pub struct Field {
    pub rule: Rule,
    pub bytes: Vec<u8>,
}

impl Field {
    /// Whether one space more may stand before it. No number may be spaces alone.
    fn takes_a_space(&self) -> bool {
        let text = matches!(self.rule, Rule::Text(..));
        self.bytes.len() < self.rule.most() && (text || self.rule.is_number() && !self.bytes.is_empty())
    }

    /// Spaces before it up to so many characters.
    pub fn widen(&mut self, width: usize) {
        let spaces = width.saturating_sub(self.bytes.len());
        self.bytes.splice(0..0, vec![b' '; spaces]);
    }
}

/// A configuration as lines of fields.
#[derive(Clone)]
pub struct Draft {
    pub lines: Vec<Vec<Field>>,
}

/// The number that the digits of a field make.
fn digits(field: &str) -> usize {
    let digits: String = field.chars().filter(char::is_ascii_digit).collect();
    digits.parse().expect("a count of a draft")
}

impl Draft {
    /// The draft of an accepted configuration, given with LF alone between its lines.
    pub fn of(text: &str) -> Draft {
        let lines: Vec<Vec<&str>> = text.split('\n').map(|line| line.split(',').collect()).collect();
        let (a, d) = (digits(lines[1][1]), digits(lines[1][2]));
        let (rates, edition) = (digits(lines[3 + a + d][0]), digits(lines[0][2]));
        let rules = all_lines(a, d, rates, edition as u32);
        assert_eq!(rules.len(), lines.len(), "a draft has all lines of its configuration");
        let field = |(&rule, text): (&Rule, &&str)| Field { rule, bytes: text.as_bytes().to_vec() };
        let fields = |(rules, texts): (&&[Rule], &Vec<&str>)| rules.iter().zip(texts).map(field).collect();
        Draft { lines: rules.iter().zip(&lines).map(fields).collect() }
    }

    /// A plain configuration with so many channels and last rows.
    pub fn plain(a: usize, d: usize, last_rows: &[u32]) -> Draft {
        let rates = last_rows.len();
        let mut lines = vec![String::from("Bench 2,R7,2013"), format!("{},{a}A,{d}D", a + d)];
        lines.extend((1..=a).map(|index| format!("{index},Ia,A,,A,0.5,0,0,-2048,2047,400,1,S")));
        lines.extend((1..=d).map(|index| format!("{index},Trip,,,0")));
        lines.extend([String::from("50"), rates.to_string()]);
        lines.extend(last_rows.iter().map(|last_row| format!("1000,{last_row}")));
        if rates == 0 {
            lines.push(String::from("0,2"));
        }
        lines.extend(RECORDING.lines().skip(7).map(String::from));
        Draft::of(&lines.join("\n"))
    }

    /// The configuration's bytes, each line with CR LF.
    pub fn bytes(&self) -> Vec<u8> {
        let mut bytes = Vec::new();
        for line in &self.lines {
            for (k, field) in line.iter().enumerate() {
                if k > 0 {
                    bytes.push(b',');
                }
                bytes.extend_from_slice(&field.bytes);
            }
            bytes.extend_from_slice(b"\r\n");
        }
        bytes
    }

    /// The same with another text in a field.
    pub fn with(&self, line: usize, field: usize, bytes: &[u8]) -> Draft {
        let mut draft = self.clone();
        draft.lines[line][field].bytes = bytes.to_vec();
        draft
    }

    /// The line of the first sample's date, which that of the trigger follows.
    pub fn date_line(&self) -> usize {
        self.place(Rule::Date).0
    }

    /// The same with another date and time in a line.
    pub fn dated(&self, line: usize, date: &str, time: &str) -> Draft {
        self.with(line, 0, date.as_bytes()).with(line, 1, time.as_bytes())
    }

    /// The same as a recorder without a clock fills it in: zeros in both date lines.
    pub fn without_dates(&self) -> Draft {
        let line = self.date_line();
        self.dated(line, ZERO_DATE, &zero_time(6)).dated(line + 1, ZERO_DATE, &zero_time(9))
    }

    /// The same with a kind's word.
    pub fn of_kind(&self, word: &str) -> Draft {
        let (line, field) = self.place(Rule::Kind);
        self.with(line, field, word.as_bytes())
    }

    /// The same of the 1999 edition: its year, binary in place of binary32, and nothing after the time multiplier.
    pub fn of_1999(&self) -> Draft {
        let (line, field) = self.place(Rule::Year);
        let mut draft = self.with(line, field, b"1999");
        let (line, field) = self.place(Rule::Kind);
        draft.lines[line][field].bytes.truncate("binary".len());
        draft.lines.truncate(self.place(Rule::Multiplier).0 + 1);
        draft
    }

    /// The same with a space before each number, code and text that may have one more.
    pub fn spaced(&self) -> Draft {
        let mut draft = self.clone();
        for field in draft.lines.iter_mut().flatten().filter(|field| field.takes_a_space()) {
            field.widen(field.bytes.len() + 1);
        }
        draft
    }

    /// Some numbers and codes with up to as many spaces before them as they may have.
    pub fn space_out(&mut self, dice: &mut Dice) {
        for field in self.lines.iter_mut().flatten() {
            if field.rule.is_number() && field.takes_a_space() && dice.once_in(2) {
                let more = dice.index(field.rule.most() - field.bytes.len() + 1);
                field.widen(field.bytes.len() + more);
            }
        }
    }

    /// The bytes of the same with longer names and circuits of its channels, until there are so many.
    pub fn filled_up(mut self, size: usize) -> Vec<u8> {
        let mut left = size - self.bytes().len();
        let channel = |line: &&mut Vec<Field>| line.first().is_some_and(|field| field.rule == Rule::Index);
        for line in self.lines.iter_mut().filter(channel) {
            for (field, byte) in [(1, b'n'), (3, b'c')] {
                let Field { rule, bytes } = &mut line[field];
                let more = left.min(rule.most() - bytes.len());
                bytes.resize(bytes.len() + more, byte);
                left -= more;
            }
        }
        self.bytes()
    }

    /// The first field of a rule: its line and place.
    pub fn place(&self, rule: Rule) -> (usize, usize) {
        for (line, fields) in self.lines.iter().enumerate() {
            if let Some(field) = fields.iter().position(|field| field.rule == rule) {
                return (line, field);
            }
        }
        panic!("no field of the rule {rule:?}");
    }

    /// A random configuration, most often an accepted one, one in three of 1999.
    pub fn random(dice: &mut Dice) -> Draft {
        let (a, d) = random_channels(dice);
        let rates = if dice.once_in(3) { dice.index(9) } else { dice.index(3) };
        let edition = if dice.once_in(3) { 1999 } else { 2013 };
        let mut spelling = Spelling { a, d, rates, edition, last_row: 0, index: 0, limit: 0, zeros: false };
        let field = |spelling: &mut Spelling, dice: &mut Dice, rule| Field { rule, bytes: spelling.value(dice, rule) };
        let mut lines = Vec::new();
        for rules in all_lines(a, d, rates, edition) {
            lines.push(rules.iter().map(|&rule| field(&mut spelling, dice, rule)).collect());
        }
        Draft { lines }
    }
}

/// Few channels most often, all that there may be now and then.
fn random_channels(dice: &mut Dice) -> (usize, usize) {
    let (a, d) = match dice.below(200) {
        0 => (96, 256),
        1..=3 => (dice.index(97), dice.index(257)),
        _ => (dice.index(4), dice.index(4)),
    };
    if a + d == 0 {
        return (1, 0);
    }
    (a, d)
}

/// What the fields before say about the next.
struct Spelling {
    a: usize,
    d: usize,
    rates: usize,
    edition: u32,
    last_row: i64,
    index: usize,
    limit: i64,
    /// Whether the date is of zeros.
    zeros: bool,
}

impl Spelling {
    /// An allowed value for the next field.
    fn value(&mut self, dice: &mut Dice, rule: Rule) -> Vec<u8> {
        let text = match rule {
            Rule::Text(least, most) => return random_text(dice, least, most),
            Rule::Year => self.edition.to_string(),
            Rule::Total => count(dice, (self.a + self.d) as i64, 6),
            Rule::Analogs => count(dice, self.a as i64, 6) + "A",
            Rule::Statuses => count(dice, self.d as i64, 6) + "D",
            Rule::Index => self.next_index(dice),
            Rule::Real => real(dice, 32, None),
            Rule::Min | Rule::Max => self.next_limit(dice, rule),
            Rule::Scale => String::from(dice.pick(&["p", "P", "s", "S"])),
            Rule::Normal => String::from(dice.pick(&["0", "1"])),
            Rule::Frequency if dice.once_in(4) => String::new(),
            Rule::Frequency => real(dice, 32, None),
            Rule::Rates => count(dice, self.rates as i64, 3),
            Rule::Rate => real(dice, 32, Some(self.rates > 0)),
            Rule::LastRow => self.next_last_row(dice),
            Rule::Date => self.next_date(dice),
            Rule::Time => self.next_time(dice),
            Rule::Kind => kind(dice, self.edition),
            Rule::Multiplier => real(dice, 32, Some(true)),
            Rule::LocalCode if dice.once_in(4) => String::from(dice.pick(&["x", " x", "     x"])),
            Rule::Code | Rule::LocalCode => code(dice),
            Rule::Quality => String::from(dice.pick(&["0", "1", "9", "A", "a", "B", "b", "F", "f", "5"])),
            Rule::Leap => dice.below(4).to_string(),
        };
        text.into_bytes()
    }

    /// Indices count 1, 2, 3; the status lines, which begin after A, start again.
    fn next_index(&mut self, dice: &mut Dice) -> String {
        self.index += 1;
        let index = if self.index > self.a { self.index - self.a } else { self.index };
        count(dice, index as i64, 6)
    }

    /// A min, then a max not below it most often.
    fn next_limit(&mut self, dice: &mut Dice, rule: Rule) -> String {
        if dice.once_in(16) {
            return String::from(dice.pick(&LIMITS));
        }
        let step = dice.below(1 << 20) as i64;
        self.limit = if rule == Rule::Min { step - (1 << 19) } else { self.limit + step };
        match dice.below(4) {
            0 => format!("{}.{}", self.limit, if rule == Rule::Min && self.limit >= 0 { 0 } else { 5 }),
            1 if (rule == Rule::Min) == (self.limit < 0) => format!("{}E1", self.limit),
            2 => format!("{:+}", self.limit),
            _ => self.limit.to_string(),
        }
    }

    /// A last row above the one before, with room for those that follow.
    fn next_last_row(&mut self, dice: &mut Dice) -> String {
        let highest = if dice.once_in(4) { 100_000 } else { 20 };
        self.last_row += dice.within(1, highest);
        count(dice, self.last_row, 10)
    }

    /// A date, one in six of zeros, now and then of zeros in part.
    fn next_date(&mut self, dice: &mut Dice) -> String {
        self.zeros = dice.once_in(6);
        match dice.below(96) {
            _ if self.zeros => String::from(ZERO_DATE),
            0 => String::from(dice.pick(&["00/00/2024", "00/01/2024", "01/00/2024", "01/01/0000", "00/00/0001"])),
            _ => date(dice),
        }
    }

    /// A time: of zeros now and then, and most often where the date is; there one of too few or too many zeros too.
    fn next_time(&mut self, dice: &mut Dice) -> String {
        let of_zeros = self.zeros != dice.once_in(12);
        match dice.below(6) {
            _ if of_zeros => zero_time(dice.within(6, 9) as usize),
            0 if self.zeros => zero_time(5),
            1 if self.zeros => zero_time(10),
            2 if self.zeros => String::new(),
            _ => time(dice),
        }
    }
}

/// Text of characters 32 to 126 but the comma.
fn random_text(dice: &mut Dice, least: usize, most: usize) -> Vec<u8> {
    let length = if dice.once_in(16) { most } else { least + dice.index((most - least).min(6) + 1) };
    let byte = |dice: &mut Dice| match dice.within(32, 126) as u8 {
        b',' => b';',
        byte => byte,
    };
    (0..length).map(|_| byte(dice)).collect()
}

/// A count of at most so many characters, spaces or zeros before it now and then.
pub fn count(dice: &mut Dice, value: i64, most: usize) -> String {
    let plain = value.to_string();
    if dice.below(4) > 0 || plain.len() >= most {
        return plain;
    }
    let width = plain.len() + dice.index(most - plain.len() + 1);
    if dice.once_in(2) {
        format!("{value:width$}")
    } else {
        format!("{value:0width$}")
    }
}

/// A real of at most so many characters; above zero, or zero, where that is asked.
fn real(dice: &mut Dice, most: usize, above: Option<bool>) -> String {
    let digit = |dice: &mut Dice| if above == Some(false) { 0 } else { dice.below(10) };
    let mut text = String::from(dice.pick(&["", "", "", " ", "+", " +", "-"]));
    if above == Some(true) {
        text = text.replace('-', "") + "1";
    }
    for _ in 0..=dice.below(8) {
        text.push_str(&digit(dice).to_string());
    }
    if dice.once_in(2) {
        text.push('.');
        for _ in 0..=dice.below(6) {
            text.push_str(&digit(dice).to_string());
        }
    }
    if dice.once_in(3) {
        text.push_str(dice.pick(&["e", "E", "E+", "e-"]));
        text.push_str(&dice.below(1000).to_string());
    }
    let width = text.len() + if dice.once_in(8) { most - text.len() } else { 0 };
    format!("{text:>width$}")
}

/// A day of the years 1900 to 9999.
fn date(dice: &mut Dice) -> String {
    let year = if dice.once_in(4) { dice.within(1900, 9999) } else { dice.within(1999, 2026) };
    let (month, day) = match dice.below(8) {
        0 => (12, 31),
        1 => (2, 28),
        2 => (2, 29),
        _ => (dice.within(1, 12), dice.within(1, 28)),
    };
    format!("{day:02}/{month:02}/{year:04}")
}

/// A time of day with 6 to 9 digits after the point.
fn time(dice: &mut Dice) -> String {
    let (hour, minute, second) = (dice.below(24), dice.below(60), dice.below(60));
    let places = dice.within(6, 9) as usize;
    let fraction = dice.below(10u64.pow(places as u32));
    format!("{hour:02}:{minute:02}:{second:02}.{fraction:0places$}")
}

/// A time of zeros with so many digits after the point.
pub fn zero_time(places: usize) -> String {
    format!("00:00:00.{:0<places$}", "")
}

/// The word of a kind that the edition has most often, with letters of either case.
fn kind(dice: &mut Dice, edition: u32) -> String {
    let words: &[&str] = match edition {
        1999 if dice.below(16) > 0 => &["ascii", "binary"],
        _ => &["ascii", "binary", "binary32"],
    };
    let word = dice.pick(words);
    word.chars().map(|letter| if dice.once_in(2) { letter.to_ascii_uppercase() } else { letter }).collect()
}

/// A time code.
fn code(dice: &mut Dice) -> String {
    let mut text = String::from(dice.pick(&["", "+", "-"]));
    text.push_str(&dice.below(15).to_string());
    if dice.once_in(2) {
        text.push_str(&format!("h{:02}", dice.below(60)));
    }
    let width = if dice.once_in(4) { 6 } else { 1 };
    format!("{text:>width$}")
}
