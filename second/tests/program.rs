//! The program, run whole.

use std::path::PathBuf;
use std::process::{Command, Output};

/// A file of its own name for one test, with these bytes.
fn file(name: &str, bytes: &[u8]) -> PathBuf {
    let path = PathBuf::from(env!("CARGO_TARGET_TMPDIR")).join(name);
    std::fs::write(&path, bytes).unwrap();
    path
}

/// The program with these arguments.
fn run(arguments: &[&PathBuf]) -> Output {
    Command::new(env!("CARGO_BIN_EXE_list")).args(arguments).output().unwrap()
}

const CFG: &str =
    "Bench 2,R7,2013\r\n2,1A,1D\r\n1,Ia,A,,A,0.5,0,0,-2048,2047,400,1,S\r\n1,Trip,,,0\r\n50\r\n1\r\n1000,2\r\n\
    03/02/2024,09:15:00.000000\r\n03/02/2024,09:15:00.001000\r\nASCII\r\n1\r\n0,0\r\n0,3\r\n";

/// The listing goes to standard output.
#[test]
fn lists_a_recording() {
    let cfg = file("whole.cfg", CFG.as_bytes());
    let dat = file("whole.dat", b"1,0,-3,0\r\n2,1000,300,1\r\n\x1A\r\n");
    let output = run(&[&cfg, &dat]);
    assert_eq!(output.stdout, b"A 1 D 1 rows 2 ASCII\n1 0 -3 0\n2 1000 300 1\n");
    assert!(output.stderr.is_empty() && output.status.success());
}

/// One line in place of the listing.
#[test]
fn refuses_in_one_line() {
    let cfg = file("refused.cfg", CFG.as_bytes());
    let empty = file("empty", b"");
    let long = file("long", &vec![b'1'; 200_000]);
    assert_eq!(run(&[&empty, &empty]).stdout, b"no cfg 2 1 0\n");
    assert_eq!(run(&[&long, &long]).stdout, b"no cfg 1 0 0\n");
    assert_eq!(run(&[&cfg, &long]).stdout, b"no dat size\n");
    assert_eq!(run(&[&cfg, &empty]).stdout, b"no dat 11 1 0\n");
}

/// Nothing on standard output where a file cannot be read.
#[test]
fn a_missing_file_is_named_on_standard_error() {
    let cfg = file("alone.cfg", CFG.as_bytes());
    let missing = PathBuf::from("no-such-file");
    for arguments in [[&cfg, &missing], [&missing, &cfg]] {
        let output = run(&arguments);
        assert!(output.stdout.is_empty() && !output.status.success());
        let error = String::from_utf8(output.stderr).unwrap();
        assert_eq!(error.lines().count(), 1);
        assert!(error.contains("no-such-file"));
    }
    assert!(run(&[&cfg]).stdout.is_empty());
}
