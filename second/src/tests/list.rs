use super::{join, with, S, T1, T2, T3};
use crate::list;

/// With T1 the program lists three lines, kinds spelled as in the document.
#[test]
fn one_recording_whole() {
    assert_eq!(list(&join(&S), T1), "A 1 D 1 rows 2 ASCII\n1 0 -3 0\n2 1000 300 1\n");
    assert_eq!(list(&with(&[(10, "BINARY")]), T2), "A 1 D 1 rows 2 binary\n1 0 -3 0\n2 1000 300 1\n");
    assert_eq!(list(&with(&[(10, "Binary32")]), T3), "A 1 D 1 rows 2 binary32\n1 0 -3 0\n2 1000 300 1\n");
}

/// A refusal, the configuration's before the data's, is one line in place of all this.
#[test]
fn refusals_are_one_line() {
    assert_eq!(list(b"", b""), "no cfg 2 1 0\n");
    assert_eq!(list(&join(&S), b"1,0,-3,0\r\n1,1000,300,1\r\n"), "no dat 12 2 1\n");
    assert_eq!(list(&with(&[(10, "binary")]), T1), "no dat 11 0 0\n");
    assert_eq!(list(&join(&S), b""), "no dat 11 1 0\n");
    assert_eq!(list(&join(&S), b"1,0,-3,0\r\n2,1000,300,1\r\nx"), "no dat 11 3 0\n");
    assert_eq!(list(&with(&[(1, ",,1991")]), T1), "no cfg 8 1 3\n");
}

/// For a data file over 65,536 bytes: no dat size.
#[test]
fn sizes_of_a_listing() {
    let long = vec![b'x'; 65_537];
    assert_eq!(list(&long, &long), "no cfg 1 0 0\n");
    assert_eq!(list(b"", &long), "no cfg 2 1 0\n");
    assert_eq!(list(&join(&S), &long), "no dat size\n");
    assert_eq!(list(&join(&S), &long[1..]), "no dat 14 1 0\n");
}

/// Two files of at most 64 KiB each.
#[test]
fn a_data_file_of_65536_bytes() {
    // 8,192 binary rows of 8 bytes would have no channel: 4,096 rows of 16 bytes have four.
    let mut lines: Vec<&str> = S.to_vec();
    lines[1] = "4,4A,0D";
    lines.remove(3);
    let more: Vec<String> = (2..=4).map(|i| S[2].replacen('1', &i.to_string(), 1)).collect();
    for (i, line) in more.iter().enumerate() {
        lines.insert(3 + i, line);
    }
    lines[8] = "1,4096";
    lines[11] = "binary";
    let mut data = Vec::new();
    for n in 1..=4096u32 {
        data.extend_from_slice(&n.to_le_bytes());
        data.extend_from_slice(&[0; 12]);
    }
    assert_eq!(data.len(), 65_536);
    let listing = list(&join(&lines), &data);
    assert!(listing.starts_with("A 4 D 0 rows 4096 binary\n1 0 0 0 0 0\n"), "{listing}");
    assert!(listing.ends_with("\n4096 0 0 0 0 0\n"));
    assert_eq!(listing.lines().count(), 4097);
}
