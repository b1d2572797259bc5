//! Configurations made by chance.

use super::damage;
use bench::filled_up;
use dice::Dice;

/// What a field is replaced by: for each rule some forms that pass and some that do not.
const FIELDS: &[&str] = &[
    "",
    " ",
    "0",
    "1",
    "2",
    "3",
    "4",
    "9",
    "-0",
    "+2",
    " -5",
    "- 5",
    "5 ",
    "     2",
    "      2",
    "000002",
    "0000002",
    "+1.50e-03",
    "007",
    "1.",
    ".5",
    "1E",
    "1E+",
    "1E0000",
    "1E-999",
    "1E999",
    "0.0E5",
    "0E999",
    "-1E-999",
    "1E39",
    "3.4028235E38",
    "-3.4028235E38",
    "3.40282351E38",
    "340282350E30",
    "34028236E31",
    "16777217",
    "16777216",
    "10",
    "1.0E1",
    "0.0000000001",
    "9999999999999",
    "99999999999999",
    "12345678901234567890123456789012",
    "00000000000000000000000000000000",
    "000000000000000000000000000000000",
    "0.123 E4",
    "123E",
    "2013",
    "1999",
    "1991",
    "2014",
    "201",
    "02013",
    " 201",
    "0A",
    "1A",
    " 1A",
    "000001A",
    "0000001A",
    "A",
    "1a",
    "1 A",
    "97A",
    "96A",
    "1D",
    "257D",
    "256D",
    "0D",
    "352",
    "353",
    "000",
    "8",
    "0009",
    "1000000",
    "1000001",
    "0000000002",
    "9999999999",
    "29/02/1900",
    "29/02/2000",
    "29/02/2024",
    "31/04/2024",
    "3/02/2024",
    "31/13/20x4",
    "00/01/2024",
    "01/01/1899",
    "01/03/0000",
    "00/00/0000",
    "00/00/2024",
    "01/00/0000",
    "00/00/0001",
    "0/0/0000",
    "//",
    "31/12/9999",
    "01/01/1900",
    "24:00:00.000000",
    "09:15:60.000000",
    "23:59:59.999999999",
    "00:00:00.0000000000",
    "00:00:00.00000",
    "00:00:00.000000",
    "00:00:00.000000000",
    "00:00:00.000001",
    "::.",
    "09:15:00.1234567",
    "ascii",
    "BiNaRy32",
    "BINARY",
    " ASCII",
    "float32",
    "binary3",
    "binary323",
    "+14h59",
    "-0h30",
    " -0",
    "15",
    "5h60",
    "005",
    "5h3",
    "5H30",
    "h30",
    "x",
    " x",
    "X",
    "-14",
    "     x",
    "      x",
    "+5h30",
    "-12h5",
    "p",
    "P",
    "S",
    "F",
    "b",
    "C",
    "G",
    "aa",
];

/// A date line that passes; one in six is of zeros, which is no date.
fn moment(dice: &mut Dice) -> String {
    if dice.once_in(6) {
        return format!("00/00/0000,00:00:00.{}", "0".repeat(6 + dice.below(4) as usize));
    }
    let (day, month, hour) = (1 + dice.below(28), 1 + dice.below(12), dice.below(24));
    let year = dice.pick(&[1900, 1999, 2000, 2023, 2024, 9999]);
    let fraction = dice.pick(&["000000", "663700", "6875001", "99999999", "976200000"]);
    format!("{day:02}/{month:02}/{year},{hour:02}:38:26.{fraction}")
}

/// The lines of a configuration that passes, with some last rows; one of 1999 ends with the time multiplier.
fn lines(dice: &mut Dice, a: u64, d: u64) -> Vec<String> {
    let year = dice.pick(&[2013, 2013, 1999]);
    let mut lines = vec![format!("Bench 2,R7,{year}"), format!("{},{a}A,{d}D", a + d)];
    for index in 1..=a {
        lines.push(format!("{index},Ia,A,,A,0.5,0,0,-2048,2047,400,1,S"));
    }
    for index in 1..=d {
        lines.push(format!("{index},Trip,,,0"));
    }
    lines.push("50".to_string());
    let rates = dice.below(4);
    lines.push(rates.to_string());
    for rate in 0..rates.max(1) {
        lines.push(format!("{},{}", if rates == 0 { 0 } else { 1000 }, 2 + 3 * rate));
    }
    lines.extend([moment(dice), moment(dice)]);
    let ends = ["ASCII", "1", "0,0", "0,3"];
    lines.extend(ends[..if year == 1999 { 2 } else { 4 }].iter().map(|line| line.to_string()));
    lines
}

/// Another field, or another length of one, or a field more or less.
fn change_field(dice: &mut Dice, lines: &mut [String]) {
    let line = dice.below(lines.len() as u64) as usize;
    let mut fields: Vec<String> = lines[line].split(',').map(str::to_string).collect();
    let at = dice.below(fields.len() as u64) as usize;
    match dice.below(10) {
        0 => fields[at] = "n".repeat(dice.pick(&[2, 3, 32, 33, 64, 65, 128, 129])),
        1 => fields.push("1".repeat(dice.below(20) as usize)),
        2 => drop(fields.remove(at)),
        _ => fields[at] = dice.pick(FIELDS).to_string(),
    }
    lines[line] = fields.join(",");
}

/// Spaces before some of the fields that may have them; those of the last line of 2013 may not.
fn space_out(dice: &mut Dice, lines: &mut [String]) {
    let end = lines.len() - usize::from(lines[0].ends_with("2013"));
    for line in &mut lines[1..end] {
        let fields: Vec<&str> = line.split(',').collect();
        let mut spaced = |(place, field): (usize, &&str)| {
            let one_character = fields.len() >= 5 && place + 1 == fields.len();
            let none = one_character || field.is_empty() || field.contains(['/', ':']) || *field == "ASCII";
            " ".repeat(if none { 0 } else { dice.below(3) as usize }) + field
        };
        let spaced: Vec<String> = fields.iter().enumerate().map(&mut spaced).collect();
        *line = spaced.join(",");
    }
}

/// A configuration of so many bytes that passes, its kind spelled so.
pub fn configuration_of_size(dice: &mut Dice, size: usize, word: &str) -> Vec<u8> {
    let mut lines = lines(dice, 96, 256);
    if dice.once_in(3) {
        space_out(dice, &mut lines);
    }
    let text = lines.join("\r\n").replace("ASCII", word) + "\r\n";
    filled_up(text.as_bytes(), size)
}

/// How many lines of a configuration begin with a date of zeros, two at most.
pub fn dates_of_zeros(cfg: &[u8]) -> usize {
    let lines = cfg.split(|&byte| byte == b'\n').skip(1);
    lines.filter(|line| line.starts_with(b"00/00/0000,")).count().min(2)
}

/// A configuration: spaces before numbers in a part, some fields changed in most of them, some bytes in a part.
pub fn configuration(dice: &mut Dice) -> Vec<u8> {
    let (a, d) = (dice.below(3), dice.below(3));
    let (a, d) = if a + d == 0 { (1, 1) } else { (a, d) };
    let mut lines = lines(dice, a, d);
    if dice.once_in(3) {
        space_out(dice, &mut lines);
    }
    for _ in 0..dice.below(4) {
        change_field(dice, &mut lines);
    }
    if dice.once_in(16) {
        lines.extend(["0,0", "0,3"].map(str::to_string));
    }
    let mut cfg = lines.join("\r\n").into_bytes();
    if !dice.once_in(3) {
        cfg.extend(b"\r\n");
    }
    if dice.once_in(4) {
        damage(dice, &mut cfg);
    }
    cfg
}
