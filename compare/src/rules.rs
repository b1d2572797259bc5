//! The rules of a configuration's fields, and for each the values on both sides of its boundaries.

/// What a field must be.
#[derive(Debug, Clone, Copy, PartialEq, Eq)]
pub enum Rule {
    /// Text, its least and most characters.
    Text(usize, usize),
    Year,
    Total,
    Analogs,
    Statuses,
    Index,
    Real,
    Min,
    Max,
    Scale,
    Normal,
    Frequency,
    Rates,
    Rate,
    LastRow,
    Date,
    Time,
    Kind,
    Multiplier,
    Code,
    LocalCode,
    Quality,
    Leap,
}

/// The rules of a line's fields, from the left.
pub type LineRules = &'static [Rule];

const STATION: LineRules = &[Rule::Text(0, 64), Rule::Text(0, 64), Rule::Year];
const CHANNELS: LineRules = &[Rule::Total, Rule::Analogs, Rule::Statuses];
#[rustfmt::skip]
const ANALOG: LineRules = &[
    Rule::Index, Rule::Text(1, 128), Rule::Text(0, 2), Rule::Text(0, 64), Rule::Text(1, 32),
    Rule::Real, Rule::Real, Rule::Real, Rule::Min, Rule::Max, Rule::Real, Rule::Real, Rule::Scale,
];
const STATUS: LineRules = &[Rule::Index, Rule::Text(1, 128), Rule::Text(0, 2), Rule::Text(0, 64), Rule::Normal];
const RATE: LineRules = &[Rule::Rate, Rule::LastRow];
const MOMENT: LineRules = &[Rule::Date, Rule::Time];

/// The rules of all lines of a configuration with so many channels and rates; one of 1999 ends with the time multiplier.
pub fn all_lines(a: usize, d: usize, rates: usize, edition: u32) -> Vec<LineRules> {
    let mut lines = vec![STATION, CHANNELS];
    lines.extend(std::iter::repeat_n(ANALOG, a));
    lines.extend(std::iter::repeat_n(STATUS, d));
    lines.push(&[Rule::Frequency]);
    lines.push(&[Rule::Rates]);
    lines.extend(std::iter::repeat_n(RATE, rates.max(1)));
    lines.extend([MOMENT, MOMENT, &[Rule::Kind], &[Rule::Multiplier]]);
    if edition != 1999 {
        lines.push(&[Rule::Code, Rule::LocalCode]);
        lines.push(&[Rule::Quality, Rule::Leap]);
    }
    lines
}

/// Whether a configuration whose lines have these rules has CR LF on each line, and no space before a number or a code.
pub fn is_bare(cfg: &[u8], rules: &[LineRules]) -> bool {
    let lines = cfg.split_inclusive(|&byte| byte == b'\n');
    let bare = |(rule, field): (&Rule, &[u8])| !rule.is_number() || !field.starts_with(b" ");
    let bare_line = |(rules, line): (&LineRules, &[u8])| {
        line.ends_with(b"\r\n") && rules.iter().zip(line.split(|&byte| byte == b',')).all(bare)
    };
    lines.clone().count() == rules.len() && rules.iter().zip(lines).all(bare_line)
}

/// Spellings that are no count, or count something else than they seem to.
#[rustfmt::skip]
const ODD_COUNTS: [&str; 24] = [
    "", " ", "   ", "+1", "-1", "-0", "+0", "1 ", "1.0", "1E0", "x", "0x1", "1 1", "- 1", "\u{7e}", "/", ":", "1:",
    "/1", "4294967297", "4294967298", "18446744073709551617", "65537", "65538",
];

/// Spellings of reals, some of them none.
#[rustfmt::skip]
const REALS: [&str; 62] = [
    "0", "1", "-1", "+1", "00", "007", "-0", "+0", "0.0", "1.5", "-1.5", "+1.50e-03", "1E0", "1e0", "1E+0", "1E-0",
    "1E5", "1E05", "1E005", "1E999", "1E-999", "0E999", "0.0E5", "0E9", "-0.0e-999", "50", "-50", " 1", "  -1",
    " +1.5E3", "", " ", "  ", "1.", ".5", "1E", "1E+", "1E-", "1E0000", "1E1234", "5 ", "- 5", "+ 5", "+", "-", ".",
    "E", "E5", ".E5", "1.E5", "1..5", "1.5.5", "1E5E5", "1E5.0", "0.123 E4", "1e 5", "--1", "+-1", "1,5", "0x1",
    "1f", "inf",
];

/// Spellings of min and max.
#[rustfmt::skip]
pub const LIMITS: [&str; 66] = [
    "0", "-0", "0.0", "0E999", "-0E-999", "1", "-1", "+1", " 1", "10", "1.0E1", "1E1", "100E-1", "0.1E2",
    "16777216", "16777217", "16777216.0", "16777216.1", "-16777217", "-16777216", "9999999999999", "-999999999999",
    "0.00000000001", "1E-999", "-1E-999", "1E-998", "2E-999", "0.1E-998", "10E-999", "1E-99", "3.4028235E38",
    "-3.4028235E38", "3.40282350E38", "34028235E31", "34.028235E37", "0.34028235E39", "3.4028234E38",
    "3.4028236E38", "-3.4028236E38", "3.40282351E38", "-3.402823E38", "34028236E31", "34028235E32", "340282350E30",
    "340282351E30", "3.4E38", "3.5E38", "1E38", "1E39", "-1E39", "4E38", "0.000001E44", "0.000001E45", "1E999",
    "-1E999", "9E999", "0000000000000", "00000000000001", "             ", "            1", "             1", "- 1",
    "1.", "99999.9999999", "3.14", "-2048",
];

/// Spellings of dates, for more than the days that `configs` counts through.
#[rustfmt::skip]
const DATES: [&str; 45] = [
    "03/02/2024", "3/02/2024", "03/2/2024", "03/02/24", "003/02/2024", "03/02/02024", "31/13/20x4", "31/04/2024",
    "29/02/1900", "29/02/2000", "29/02/2100", "28/02/2100", "00/01/2024", "01/00/2024", "01/13/2024", "32/01/2024",
    "01/01/1899", "01/01/1900", "31/12/9999", "01/01/0000", "", "          ", " 3/02/2024", "03/ 2/2024",
    "03/02/ 024", "03-02-2024", "03/02-2024", "03.02/2024", "2024/02/03", "0a/02/2024", "+3/02/2024", "03/02/202 ",
    "99/99/9999", "03/02/2024 ", "00/00/0000", "00/00/2024", "00/00/0001", "00/01/0000", "01/00/0000", "0/0/0000",
    "00/00/000", "00/00/00000", "00-00-0000", "00/00/0000 ", "//",
];

/// Spellings of times.
#[rustfmt::skip]
const TIMES: [&str; 48] = [
    "09:15:00.000000", "00:00:00.000000", "23:59:59.999999", "23:59:59.999999999", "24:00:00.000000",
    "09:60:00.000000", "09:15:60.000000", "99:99:99.999999", "9:15:00.000000", "009:15:00.000000", "09:15:00.00000",
    "09:15:00.0000000", "09:15:00.00000000", "09:15:00.000000001", "09:15:00.0000000000", "09:15:00.", "09:15:00",
    "", " 9:15:00.000000", "09: 5:00.000000", "09:15: 0.000000", "09:15:00. 00000", "09:15:00.00000 ",
    "09:15:00,000000", "09.15:00.000000", "09:15.00.000000", "09:15:00:000000", "09:15:00.0000x0",
    "0x:15:00.000000", "09:1x:00.000000", "09:15:0x.000000", "+9:15:00.000000", "09:15:00.-00001",
    "09:15:00.1234567", "09:15:00.12345678", "09:15:00.123456789", "               ", "09:15:00.9999999",
    "00:00:00.00000", "00:00:00.0000000", "00:00:00.00000000", "00:00:00.000000000", "00:00:00.0000000000",
    "00:00:00.000001", "00:00:00.000000001", "00:00:01.000000", "00:00:00.", "::.",
];

/// Spellings of the kind; `configs` writes each word in every case.
#[rustfmt::skip]
const KINDS: [&str; 24] = [
    "ASCII", "ascii", "BINARY", "binary", "BINARY32", "binary32", "BiNaRy32", "FLOAT32", "float32", " ASCII",
    "ASCII ", "asci", "ascii2", "binar", "binary3", "binary33", "binary32 ", "binary032", "", "     ", "        ",
    "abcdefgh", "abcdefghi", "aSCi1",
];

/// Spellings of time codes; `configs` puts together many more.
const CODES: [&str; 40] = [
    "0", "x", "X", " x", "     x", "      x", "x ", "+x", "-x", "xx", "14", "15", "+14h59", "-14h59", "-0h30", " -0",
    "-0", "+0", "5h60", "5h59", "005", "5h3", "5H30", "h30", "", " ", "      ", "+", "-", "5h", "5h300", "14h00",
    " 14h00", "- 5", "5 ", "1h1x", "1hx1", "5.5", "+-5", "99",
];

/// A word with its letters large where the mask has a bit, the lowest for the first, and else small.
pub fn cased(word: &str, mask: u32) -> String {
    let letter = |(k, letter): (usize, char)| match mask >> k & 1 {
        1 => letter.to_ascii_uppercase(),
        _ => letter.to_ascii_lowercase(),
    };
    word.chars().enumerate().map(letter).collect()
}

/// One-character fields and what else may stand there.
const ONES: [&str; 28] = [
    "", " ", "0", "1", "2", "3", "4", "9", "A", "B", "C", "D", "E", "F", "a", "b", "c", "f", "g", "p", "P", "s", "S",
    "x", "00", "01", "1 ", " 1",
];

/// Spellings as bytes.
fn spelled(list: &[&str]) -> Vec<Vec<u8>> {
    list.iter().map(|text| text.as_bytes().to_vec()).collect()
}

/// Texts of lengths on both sides of the least and the most, and of the outermost characters.
fn texts(least: usize, most: usize) -> Vec<Vec<u8>> {
    let lengths = [0, 1, 2, least, most - 1, most, most + 1, most + 2];
    let mut list: Vec<Vec<u8>> = lengths.iter().map(|&length| vec![b'n'; length]).collect();
    list.extend([vec![b' '; most], vec![b'~'; most], vec![b' '; most + 1], b"\"".to_vec(), b"\x1f".to_vec()]);
    list
}

/// Counts on both sides of a range, in up to `most` digits and one more, with and without something behind.
fn counts(most: usize, low: u64, high: u64, behind: &str) -> Vec<Vec<u8>> {
    let top = 10u64.pow(most as u32);
    let edges = [0, 1, 2, 3, low.saturating_sub(1), low, high - 1, high, high + 1, top - 1, top];
    let mut list = Vec::new();
    for edge in edges {
        for text in [
            format!("{edge}"),
            format!(" {edge}"),
            format!("0{edge}"),
            format!("{edge:most$}"),
            format!("{edge:0most$}"),
        ] {
            list.push(text + behind);
        }
        list.push(format!(" {edge:most$}{behind}"));
        list.push(format!("0{edge:0most$}{behind}"));
    }
    list.extend(ODD_COUNTS.iter().map(|text| format!("{text}{behind}")));
    list.sort();
    list.dedup();
    list.into_iter().map(String::into_bytes).collect()
}

/// Counts with a letter behind, and the letter misspelled.
fn lettered(letter: &str, high: u64) -> Vec<Vec<u8>> {
    let mut list = counts(6, 0, high, letter);
    list.extend(spelled(&["1", "1a", "1d", "1A", "1D", "1 A", "1 D", "A", "D", "1AA", "A1", "1DD", "1B", "", "1AD"]));
    list
}

/// Reals of 32 and 33 characters beside the others.
fn reals() -> Vec<Vec<u8>> {
    let mut list = spelled(&REALS);
    for length in [31, 32, 33] {
        list.push(vec![b'9'; length]);
        list.push(vec![b'0'; length]);
        list.push([vec![b' '; length - 1], b"5".to_vec()].concat());
        list.push([vec![b'0'; length - 5], b".0001".to_vec()].concat());
        list.push([b"0.".to_vec(), vec![b'0'; length - 3], b"1".to_vec()].concat());
        list.push([b"-".to_vec(), vec![b'1'; length - 5], b"E-99".to_vec()].concat());
    }
    list
}

/// Longer than any field may be.
const LONG: &str = match std::str::from_utf8(&[b'n'; 140]) {
    Ok(text) => text,
    Err(_) => "",
};

impl Rule {
    /// Whether the field is a number or a code, which may have spaces before it.
    pub fn is_number(self) -> bool {
        match self {
            Rule::Total | Rule::Analogs | Rule::Statuses | Rule::Index | Rule::Real | Rule::Min | Rule::Max => true,
            Rule::Frequency | Rule::Rates | Rule::Rate | Rule::LastRow | Rule::Multiplier => true,
            Rule::Code | Rule::LocalCode => true,
            Rule::Text(..) | Rule::Year | Rule::Scale | Rule::Normal | Rule::Date | Rule::Time => false,
            Rule::Kind | Rule::Quality | Rule::Leap => false,
        }
    }

    /// The most characters of the field.
    pub fn most(self) -> usize {
        match self {
            Rule::Text(_, most) => most,
            Rule::Scale | Rule::Normal | Rule::Quality | Rule::Leap => 1,
            Rule::Rates => 3,
            Rule::Year => 4,
            Rule::Total | Rule::Index | Rule::Code | Rule::LocalCode => 6,
            Rule::Analogs | Rule::Statuses => 7,
            Rule::Kind => 8,
            Rule::LastRow | Rule::Date => 10,
            Rule::Min | Rule::Max => 13,
            Rule::Time => 18,
            Rule::Real | Rule::Frequency | Rule::Rate | Rule::Multiplier => 32,
        }
    }

    /// Two values that are refused: one for its form, and one for what it says or, where the rule allows whatever has the form, for the line that it makes.
    pub fn refused(self) -> [&'static str; 2] {
        match self {
            Rule::Text(..) => [LONG, "\x01"],
            Rule::Year => ["13", "1991"],
            Rule::Total => ["+1", "0"],
            Rule::Analogs => ["1a", "97A"],
            Rule::Statuses => ["1d", "257D"],
            Rule::Index => ["-1", "7"],
            Rule::Real | Rule::Frequency => ["1.", "1,1"],
            Rule::Min => ["1.", "1E39"],
            Rule::Max => ["1.", "-1E38"],
            Rule::Scale => ["", "x"],
            Rule::Normal => ["", "2"],
            Rule::Rates => ["+1", "9"],
            Rule::Rate => ["1.", "-1"],
            Rule::LastRow => ["+1", "0"],
            Rule::Date => ["3/02/2024", "29/02/1900"],
            Rule::Time => ["9:15:00.000000", "24:00:00.000000"],
            Rule::Kind => ["asci", "float32"],
            Rule::Multiplier => ["1.", "0"],
            Rule::Code => ["h30", "15"],
            Rule::LocalCode => ["X", "5h60"],
            Rule::Quality => ["", "C"],
            Rule::Leap => ["", "4"],
        }
    }

    /// Values on both sides of the rule's boundaries.
    pub fn values(self) -> Vec<Vec<u8>> {
        match self {
            Rule::Text(least, most) => texts(least, most),
            Rule::Year => spelled(&[
                "2013", "1991", "1999", "2012", "2014", "0000", "9999", "", "    ", " 201", "201", "02013", "2013 ",
                " 2013", "20I3", "+201", "-201", "13", "201x", "x013", "1998", "2000", "199", "1999 ", " 1999",
                "01999", "19999", "99", "9199", "1299", "2019", "1913",
            ]),
            Rule::Total => counts(6, 1, 352, ""),
            Rule::Analogs => lettered("A", 96),
            Rule::Statuses => lettered("D", 256),
            Rule::Index => counts(6, 1, 2, ""),
            Rule::Real | Rule::Frequency | Rule::Rate | Rule::Multiplier => reals(),
            Rule::Min | Rule::Max => [spelled(&LIMITS), reals()].concat(),
            Rule::Rates => counts(3, 0, 8, ""),
            Rule::LastRow => counts(10, 1, 1_000_000, ""),
            Rule::Date => spelled(&DATES),
            Rule::Time => spelled(&TIMES),
            Rule::Kind => spelled(&KINDS),
            Rule::Code | Rule::LocalCode => spelled(&CODES),
            Rule::Scale | Rule::Normal | Rule::Quality | Rule::Leap => {
                let every = (0..=255).map(|byte| vec![byte]);
                spelled(&ONES).into_iter().chain(every).collect()
            }
        }
    }
}
