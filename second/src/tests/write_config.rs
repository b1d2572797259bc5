use super::config::shown;
use super::{join, no, of_size, with, yes, S};
use crate::{write_config, Answer};

/// The spelling of each kind, by its number.
const WORDS: [&str; 3] = ["ASCII", "binary", "binary32"];

/// The configuration as it is written, with ample, exact and too little room; or the refusal, which changes nothing.
pub fn written(cfg: &[u8], kind: u32) -> Result<Vec<u8>, Answer> {
    let mut ample = vec![0xEE; 65_600];
    let answer = write_config(cfg, kind, &mut ample);
    if answer.number != 0 {
        assert!(ample.iter().all(|&byte| byte == 0xEE));
        assert_eq!(write_config(cfg, kind, &mut []), answer);
        return Err(answer);
    }
    assert_eq!(answer, yes(answer.length));
    let rest = ample.split_off(answer.length as usize);
    assert!(rest.iter().all(|&byte| byte == 0xEE));
    let mut exact = vec![0xEE; ample.len()];
    assert_eq!(write_config(cfg, kind, &mut exact), answer);
    assert_eq!(exact, ample);
    let mut short = vec![0xEE; ample.len() - 1];
    assert_eq!(write_config(cfg, kind, &mut short), no(17, 0, 0));
    assert!(short.iter().all(|&byte| byte == 0xEE));
    Ok(ample)
}

/// What is written shows the same in all but the kind, and stays when it is written again, to another kind and back too.
fn kept(cfg: &[u8]) {
    for kind in 0..3 {
        let result = written(cfg, kind).unwrap();
        let mut want = shown(cfg);
        want[28] = i64::from(kind);
        assert_eq!(shown(&result), want);
        for other in 0..3 {
            let again = written(&result, other).unwrap();
            assert_eq!(again, written(cfg, other).unwrap());
            assert_eq!(written(&again, kind), Ok(result.clone()));
        }
    }
}

/// The recording with a line in place of another, in each kind, has that line as it is wanted.
fn each(line: usize, cases: &[(&str, &str)]) {
    for &(text, want) in cases {
        let cfg = with(&[(line, text)]);
        for (kind, word) in (0..).zip(WORDS) {
            let new = if line == 10 { with(&[(line, word)]) } else { with(&[(line, want), (10, word)]) };
            assert_eq!(written(&cfg, kind), Ok(new), "line {line}: {text:?}");
        }
        kept(&cfg);
    }
}

/// The kind's word alone is another.
#[test]
fn the_kinds_word() {
    let binary = with(&[(10, "binary")]);
    assert_eq!(binary.len(), 168);
    let mut out = [0xEE; 200];
    assert_eq!(write_config(&join(&S), 1, &mut out), yes(168));
    assert_eq!(out[..168], binary);
    assert_eq!(out[168..], [0xEE; 32]);
    let mut out = [0xEE; 170];
    assert_eq!(write_config(&join(&S), 2, &mut out), yes(170));
    assert_eq!(out[..], with(&[(10, "binary32")]));
    each(10, &[("ascii", ""), ("ASCII", ""), ("bInArY", ""), ("BINARY32", ""), ("BiNaRy32", "")]);
}

/// CR LF on each line, the last too, also where the source ended with the file.
#[test]
fn the_last_line_gets_its_end() {
    let whole = join(&S);
    assert_eq!(whole.len(), 167);
    for (kind, word) in (0..).zip(WORDS) {
        assert_eq!(written(&whole[..165], kind), Ok(with(&[(10, word)])));
    }
    assert_eq!(written(&whole[..165], 0), Ok(whole.clone()));
    assert_eq!(written(&whole, 0), Ok(whole));
}

/// Leading spaces of numbers and codes go, and nothing else: zeros, a plus and spaces of texts stay.
#[test]
fn leading_spaces_of_numbers_and_codes_go() {
    let cfg = with(&[
        (2, "     2,     1A, 1D"),
        (3, "     1, Ia, A,  , A, 0.5, +0, 00,-2048, 2047,  400, 1,S"),
        (4, " 01, Trip,,,0"),
        (5, "  50"),
        (6, " 01"),
        (7, "   1000,         2"),
        (10, "bInArY"),
        (11, " 1"),
        (12, "  -0,     x"),
    ]);
    let want = with(&[
        (2, "2,1A,1D"),
        (3, "1, Ia, A,  , A,0.5,+0,00,-2048,2047,400,1,S"),
        (4, "01, Trip,,,0"),
        (6, "01"),
        (10, "binary"),
        (12, "-0,x"),
    ]);
    assert_eq!(want.len(), 179);
    assert_eq!(written(&cfg, 1), Ok(want.clone()));
    assert_eq!(written(&want, 1), Ok(want));
    kept(&cfg);
}

/// Each number and each code by itself, with as many spaces as it may have.
#[test]
fn each_number_loses_its_spaces() {
    each(2, &[("     2,1A,1D", S[1]), ("2,     1A,1D", S[1]), ("2,1A,     1D", S[1]), (" 02, 01A, 01D", "02,01A,01D")]);
    let analog = S[2].split(',').collect::<Vec<&str>>();
    for (field, most) in [(1, 6), (6, 32), (7, 32), (8, 32), (9, 13), (10, 13), (11, 32), (12, 32)] {
        let mut fields = analog.clone();
        let spaced = format!("{:>most$}", analog[field - 1]);
        fields[field - 1] = &spaced;
        each(3, &[(&fields.join(","), S[2])]);
    }
    each(4, &[("     1,Trip,,,0", S[3])]);
    each(5, &[(&format!("{:>32}", "50"), "50"), ("", ""), (" -1.50E+03", "-1.50E+03")]);
    each(6, &[("  1", "1"), (" 01", "01")]);
    each(7, &[("  1000,2", S[6]), ("1000,         2", S[6]), (" 1000, 0002", "1000,0002")]);
    each(11, &[(&format!("{:>32}", "1E-3"), "1E-3"), (" +1", "+1")]);
    each(12, &[(" +5h30,0", "+5h30,0"), ("0,    -0", "0,-0"), ("    14, -0h30", "14,-0h30"), ("0,     x", "0,x")]);
}

/// Texts, dates, times and single characters stay as they stand, leading spaces of texts too.
#[test]
fn other_fields_stay() {
    let spaced = with(&[(1, " Bench 2, R7,2013")]);
    assert_eq!(spaced.len(), 169);
    assert_eq!(written(&spaced, 0), Ok(spaced));
    let station = "  ,   R7  ,2013";
    let names = "1,  Ia  , A, bay , kA ,0.5,0,0,-2048,2047,400,1,p";
    each(1, &[(station, station), (",,2013", ",,2013")]);
    each(3, &[(names, names), ("1, ,  , , ,0.5,0,0,-2048,2047,400,1,P", "1, ,  , , ,0.5,0,0,-2048,2047,400,1,P")]);
    each(4, &[("1,  Trip,  , ,1", "1,  Trip,  , ,1"), ("000001, ,,,0", "000001, ,,,0")]);
    each(8, &[("29/02/2000,23:59:59.999999999", "29/02/2000,23:59:59.999999999")]);
    each(13, &[("f,0", "f,0"), ("B,1", "B,1")]);
}

/// An empty frequency line stays empty; one of a space was never accepted.
#[test]
fn the_empty_frequency() {
    let empty = with(&[(5, "")]);
    assert_eq!(empty.len(), 165);
    assert_eq!(written(&empty, 0), Ok(empty));
    assert_eq!(written(&with(&[(5, " ")]), 0), Err(no(5, 5, 1)));
}

/// Two analog channels, three status channels and three rates, with spaces before all that may have one.
#[rustfmt::skip]
const SPACED: [&str; 18] = [
    "B,R,2013", " 5, 2A, 3D", " 1, a,,,V, 1, 0, 0, -5, 7, 1, 1,S", " 2, b,,,V, 1, 0, 0, -5, 7, 1, 1,p",
    " 1, t,,,0", " 2, u,,,1", " 3, v,,,0", " 50", " 3", " 100, 2", " 200, 4", " 300, 6", S[7], S[8],
    "ascii", " 1", " +1, -2h30", "B,0",
];

/// The same as it is written to binary32.
#[rustfmt::skip]
const BARE: [&str; 18] = [
    "B,R,2013", "5,2A,3D", "1, a,,,V,1,0,0,-5,7,1,1,S", "2, b,,,V,1,0,0,-5,7,1,1,p",
    "1, t,,,0", "2, u,,,1", "3, v,,,0", "50", "3", "100,2", "200,4", "300,6", S[7], S[8],
    "binary32", "1", "+1,-2h30", "B,0",
];

/// Every line at its own place.
#[test]
fn several_channels_and_rates() {
    let (cfg, want) = (join(&SPACED), join(&BARE));
    assert_eq!((cfg.len(), want.len()), (245, 215));
    assert_eq!(written(&cfg, 2), Ok(want));
    kept(&cfg);
}

/// No analog channel and no rates, which still have one line.
#[test]
fn no_analog_channel_and_no_rates() {
    let lines = |rates, rate, word, codes| {
        join(&["B,R,2013", "1,0A,1D", "1,t,,,0", "", rates, rate, S[7], S[8], word, "1", codes, "0,3"])
    };
    let (cfg, want) = (lines(" 0", " 0.0, 2", "ASCII", "0, x"), lines("0", "0.0,2", "binary", "0,x"));
    assert_eq!((cfg.len(), want.len()), (120, 117));
    assert_eq!(written(&cfg, 1), Ok(want));
    kept(&cfg);
}

/// No status channel.
#[test]
fn no_status_channel() {
    let lines = |counts, analog, rate, word, codes| {
        join(&["B,R,2013", counts, analog, "50", "1", rate, S[7], S[8], word, "1", codes, "0,3"])
    };
    let cfg = lines("1, 1A, 0D", " 1, a,,,V, 1, 0, 0, -5, 7, 1, 1,S", " 5, 2", "ASCII", "0, x");
    let want = lines("1,1A,0D", "1, a,,,V,1,0,0,-5,7,1,1,S", "5,2", "binary", "0,x");
    assert_eq!((cfg.len(), want.len()), (147, 135));
    assert_eq!(written(&cfg, 1), Ok(want));
    kept(&cfg);
}

/// Every number of rates, spaces before each rate and its last row.
#[test]
fn every_number_of_rates() {
    for rates in 0..=8usize {
        let rate = if rates == 0 { "0" } else { "7" };
        let lines = |space: &str| {
            let count = format!("{space}{rates}");
            let list: Vec<String> = (1..=rates.max(1)).map(|k| format!("{space}{rate},{space}{k}")).collect();
            let mut lines = [&S[..5], &[&count]].concat();
            lines.extend(list.iter().map(String::as_str));
            join(&[&lines[..], &S[7..]].concat())
        };
        assert_eq!(written(&lines(" "), 0), Ok(lines("")));
        kept(&lines("  "));
    }
}

/// Refusals: those of the reader, then 10.
#[test]
fn the_reader_refuses_before_the_kind() {
    let cut = join(&S[..12]);
    for kind in [0, 1, 2, 3, 9, u32::MAX] {
        assert_eq!(written(&cut, kind), Err(no(2, 13, 0)));
        assert_eq!(written(b"", kind), Err(no(2, 1, 0)));
        assert_eq!(written(b"Bench\t", kind), Err(no(3, 1, 0)));
        assert_eq!(written(&with(&[(7, "1000")]), kind), Err(no(4, 7, 0)));
        assert_eq!(written(&with(&[(10, " ASCII")]), kind), Err(no(6, 10, 1)));
        assert_eq!(written(&with(&[(2, "3,1A,1D")]), kind), Err(no(7, 2, 3)));
        assert_eq!(written(&with(&[(1, "B,R,1991")]), kind), Err(no(8, 1, 3)));
        assert_eq!(written(&[join(&S), b"\r\n".to_vec()].concat(), kind), Err(no(9, 14, 0)));
        assert_eq!(written(&vec![b' '; 65_537], kind), Err(no(1, 0, 0)));
    }
    for kind in [3, 4, 256, 65_536, u32::MAX] {
        assert_eq!(written(&join(&S), kind), Err(no(10, 0, 0)));
    }
}

/// 17 is the last of all, with length 0, and changes no byte.
#[test]
fn room_is_the_last_test() {
    let mut short = [0xEE; 167];
    assert_eq!(write_config(&join(&S), 1, &mut short), no(17, 0, 0));
    assert_eq!(short, [0xEE; 167]);
    assert_eq!(write_config(&join(&S), 3, &mut []), no(10, 0, 0));
}

/// 65,536 bytes may pass; a result of one more is 1, after 10 and before 17.
#[test]
fn results_of_65536_bytes() {
    let ascii = of_size(65_536, "ASCII");
    assert_eq!(written(&ascii, 0), Ok(ascii.clone()));
    assert_eq!(written(&ascii, 1), Err(no(1, 0, 0)));
    assert_eq!(written(&ascii, 2), Err(no(1, 0, 0)));
    assert_eq!(written(&ascii, 3), Err(no(10, 0, 0)));
    let mut longer = of_size(65_537, "ASCII");
    assert_eq!(written(&longer, 3), Err(no(1, 0, 0)));
    longer.truncate(65_535);
    assert_eq!(written(&longer, 0), Err(no(1, 0, 0)));
    assert_eq!(written(&ascii[..65_534], 0), Ok(ascii));
    let wide = of_size(65_536, "binary32");
    assert_eq!(written(&wide, 0), Ok(of_size(65_533, "ASCII")));
    assert_eq!(written(&wide[..65_534], 2), Ok(wide));
}

/// The result is longer than the source by at most 5 bytes: up to 65,531 bytes every result passes.
#[test]
fn five_bytes_more_at_most() {
    let source = of_size(65_533, "ascii");
    assert_eq!(written(&source[..65_531], 2), Ok(of_size(65_536, "binary32")));
    let source = of_size(65_534, "ascii");
    assert_eq!(written(&source[..65_532], 2), Err(no(1, 0, 0)));
    let spaced = [&source[..17], b" ", &source[17..]].concat();
    assert_eq!(spaced.len(), 65_535);
    assert_eq!(written(&spaced, 1), Ok(of_size(65_535, "binary")));
}
