//! Systematic cases of the data calls: each rule, each field, each boundary, each place where the file can end.

use crate::calls::{change, four_calls, needed};
use crate::case::{Case, Layout};
use crate::damage::{spliced, Damage};
use crate::files::{plain_file, row_bytes, text, widest_line, Recording, BEYOND, EDITION_KINDS, MARK, SAMPLES};
use crate::walk::Walk;
use std::ops::RangeInclusive;

/// Spellings of a text row's number, time, samples and statuses.
#[rustfmt::skip]
pub const FIELDS: [&str; 90] = [
    "", " ", "0", "1", "2", "3", "-0", "+0", "-1", "+1", "- 1", "+ 1", "-", "+", "--1", "+-1", " 1", "1 ", "01", " 01", "0 1",
    "1.0", "1E0", "x", "0x1", "/", ":", "/1", "1:", "0000000001", "         1", "00000000001", "          1", "00000000002",
    "0000000000001", "            1", "00000000000001", "             1", "-000000000001", "+000000000001", "-0000000000001",
    "           -1", "            -1", "32767", "32768", "-32767", "-32768", "-32769", "2147483647", "2147483648",
    "-2147483647", "-2147483648", "-2147483649", "-002147483647", "-002147483648", "             ", "              ", "+2147483647", "+2147483648", "4294967295", "4294967296", "004294967295", "9999999999", "9999999999999",
    "-999999999999", "99999999999999", "4294967297", "4294967298", "-4294967295", "10", "11", "21", "00", "11 ", "true", "\"1\"",
    "99998", "99999", "+99999", "  99999", "0000000099999", "+000000099999", "        99999", "00000000099999", "-99999", "100000",
    "-100000", "-000000099999", "99999 ", "99999.0",
];

/// What may follow the last row of a text, and what may not.
#[rustfmt::skip]
pub const ENDINGS: [&[u8]; 24] = [
    b"", b"\x1a", b"\x1a\r\n", b"\x1a\r", b"\x1a\n", b"\x1a\x1a", b"\x1a\x1a\r\n", b"\r\n", b"\r", b"\n", b" ", b"x", b"\0",
    b"\x1a\r\n\0", b"\x1a\r\n\x1a", b"\x1a\r\n\r\n", b"\x1a\n\r", b"\x1b", b"\x1b\r\n", b"\x1a\r\r", b"\x1a \n", b"\x1a\n\n",
    b"3,0,0,0\r\n", b"\x1a\r\n ",
];

/// Small layouts, whose files are damaged at every byte.
const SMALL: [(u32, u32, u32); 4] = [(1, 1, 2), (2, 17, 2), (0, 16, 2), (3, 0, 1)];

/// Rows of text with spaces, zeros and signs, at the edges of their ranges: A = 2, D = 1.
const SPELLED: &[u8] = b" 01,  0007,-0,+5,1\r\n0000000002,4294967295,-2147483647,0000000000012,0\r\n";

/// The same of 1999.
const SPELLED_IN_1999: &[u8] = b" 01,  0007,-0,+99999,1\r\n0000000002,4294967295,-99999,0000000099998,0\r\n";

/// Layouts on both sides of words of statuses, of few and many channels and rows.
#[rustfmt::skip]
const LAYOUTS: [(u32, u32, u32); 18] = [
    (1, 1, 2), (1, 0, 1), (0, 1, 1), (6, 6, 5), (2, 15, 3), (2, 16, 3), (2, 17, 3), (0, 31, 2), (0, 32, 2),
    (0, 33, 2), (1, 255, 2), (1, 256, 2), (95, 1, 2), (96, 0, 2), (96, 256, 3), (3, 5, 12), (1, 1, 101),
    (0, 1, 1001),
];

/// The numbers that are kinds, and some that are none.
const KINDS: [u32; 5] = [0, 1, 2, 3, u32::MAX];

/// Numbers that are editions, and some that are none.
pub const EDITIONS: [u32; 10] = [2013, 1999, 0, 1, 1991, 1998, 2000, 2014, 1999 + (1 << 16), u32::MAX];

/// All cases, in an order that stays.
pub fn walk(walk: &mut Walk) {
    sizes(walk);
    for kind in 0..3 {
        for (a, d, rows) in SMALL {
            let layout = Layout::new(a, d, rows, kind);
            damaged(walk, layout, &Recording::plain(layout).bytes());
        }
        for (a, d, rows) in LAYOUTS {
            cuts(walk, &Recording::plain(Layout::new(a, d, rows, kind)));
        }
    }
    for kind in EDITION_KINDS {
        for (a, d, rows) in LAYOUTS {
            let recording = Recording::plain(Layout::of(a, d, rows, kind));
            other_layouts(walk, &recording);
            rooms(walk, &recording);
            samples_to_change(walk, &recording);
            two_samples_to_change(walk, &recording);
            rows_to_write(walk, recording.layout);
            rooms_to_write(walk, &recording);
        }
        pairs(walk, Layout::of(2, 3, 2, kind));
        order_of_writing(walk, Layout::of(2, 2, 3, kind));
        numbers_to_write(walk, Layout::of(1, 1, 1_000_000, kind));
        most_rows(walk, Layout::of(0, 1, 1_000_000, kind));
    }
    for ending in [&b""[..], b"\x1a"] {
        damaged(walk, Layout::new(2, 1, 2, 0), &[SPELLED, ending].concat());
        damaged(walk, Layout::of(2, 1, 2, (0, 1999)), &[SPELLED_IN_1999, ending].concat());
    }
    damaged(walk, Layout::of(1, 1, 2, (1, 1999)), &Recording::plain(Layout::new(1, 1, 2, 1)).bytes());
    for edition in [2013, 1999] {
        text_fields(walk, edition);
        widest_rows(walk, edition);
    }
    endings(walk);
    long_rows(walk);
    editions(walk);
    reasons(walk);
}

/// Sizes of layouts on both sides of what is allowed, and where sums or products would not fit 32 bits.
fn sizes(walk: &mut Walk) {
    let analogs = [0, 1, 2, 95, 96, 97, 1 << 31, u32::MAX - 1, u32::MAX];
    let statuses = [0, 1, 15, 16, 17, 255, 256, 257, 1 << 31, u32::MAX];
    for a in analogs {
        for d in statuses {
            for rows in [0, 1, 2, 1_000_000, 1_000_001, u32::MAX] {
                for kind in KINDS {
                    size(walk, Layout::new(a, d, rows, kind));
                }
            }
        }
    }
}

/// Every call with one layout, with a file of few rows if it has one, or an empty one.
fn size(walk: &mut Walk, layout: Layout) {
    let few = layout.a <= 96 && layout.d <= 256 && layout.rows <= 2 && layout.kind <= 2;
    let file = || if few { Recording::plain(layout).bytes() } else { Vec::new() };
    four_calls(walk, layout, layout.a as usize + layout.d as usize, &file);
    walk.case(|| Case::Row { layout, file: file(), n: 0, places: layout.places() });
    let row = vec![0; layout.places()];
    for (n, room) in [(1, 3000), (layout.rows, 3000), (0, 0)] {
        walk.case(|| Case::WriteRow { layout, n, row: row.clone(), room });
    }
    for new_kind in KINDS {
        walk.case(|| Case::Length { layout, file: file(), new_kind });
        walk.case(|| Case::Change { layout, file: file(), new_kind, room: 6000 });
    }
}

/// A small file damaged at every byte.
fn damaged(walk: &mut Walk, layout: Layout, file: &[u8]) {
    let mut damages = Damage::every();
    if layout.kind > 0 {
        damages.extend(Damage::flips());
    }
    damaged_at(walk, layout, file, 0..=file.len(), &damages);
}

/// A file with each damage of a list at each place of some.
pub fn damaged_at(walk: &mut Walk, layout: Layout, file: &[u8], places: RangeInclusive<usize>, damages: &[Damage]) {
    for at in places {
        for (turn, damage) in damages.iter().enumerate() {
            four_calls(walk, layout, at + turn, &|| damage.at(file, at));
        }
    }
}

/// A good file taken for one of another layout.
fn other_layouts(walk: &mut Walk, recording: &Recording) {
    let layout = recording.layout;
    let file = recording.bytes();
    let near = |number: u32| [number.wrapping_sub(1), number, number + 1];
    for a in near(layout.a) {
        for d in near(layout.d) {
            for rows in near(layout.rows) {
                four_calls(walk, Layout { a, d, rows, ..layout }, rows as usize, &|| file.clone());
            }
        }
    }
    for kind in 0..3 {
        four_calls(walk, layout.of_kind(kind), 0, &|| file.clone());
    }
    for (turn, edition) in EDITIONS.into_iter().enumerate() {
        four_calls(walk, layout.of_edition(edition), turn, &|| file.clone());
    }
}

/// Every row of a few, one before, one after; places and bytes too few, enough and more.
fn rooms(walk: &mut Walk, recording: &Recording) {
    let layout = recording.layout;
    let file = recording.bytes();
    let exact = layout.places();
    for n in [0, 1, 2, 3, layout.rows - 1, layout.rows, layout.rows + 1, u32::MAX] {
        for places in [0, 1, exact - 1, exact, exact + 1, exact + 9] {
            walk.case(|| Case::Row { layout, file: file.clone(), n, places });
        }
    }
    for new_kind in KINDS {
        walk.case(|| Case::Length { layout, file: file.clone(), new_kind });
        for room in 0..7 {
            walk.case(|| {
                let exact = needed(layout, &file, new_kind);
                let room = [0, 1, exact / 2, exact - 1, exact, exact + 1, exact + 77][room];
                Case::Change { layout, file: file.clone(), new_kind, room }
            });
        }
    }
}

/// The file ends at every byte, and has more bytes than it should.
fn cuts(walk: &mut Walk, recording: &Recording) {
    let layout = recording.layout;
    let file = recording.bytes();
    for at in 0..file.len() {
        if at < 200 || at + 200 > file.len() {
            four_calls(walk, layout, at, &|| file[..at].to_vec());
        } else {
            walk.case(|| Case::Check { layout, file: file[..at].to_vec() });
        }
    }
    for more in [1, 2, 3, 8, 10, 12] {
        four_calls(walk, layout, more, &|| [&file[..], &vec![b'0'; more]].concat());
        four_calls(walk, layout, more, &|| [&file[..], &file[..more.min(file.len())]].concat());
    }
}

/// Every edge of a sample in the first and last place of the first and last row, changed to each kind.
fn samples_to_change(walk: &mut Walk, recording: &Recording) {
    let layout = recording.layout;
    if layout.a == 0 || layout.rows > 20 {
        return;
    }
    for (row, place) in [(1, 1), (1, layout.a), (layout.rows, 1), (layout.rows, layout.a)] {
        for sample in SAMPLES {
            for new_kind in 0..3 {
                walk.case(|| {
                    let recording = recording.with(row as usize - 1, place as usize, sample);
                    change(layout, recording.bytes(), new_kind, 0)
                });
            }
        }
    }
}

/// Two samples that do not fit the binary kind, in every two places of the first three rows and channels: the first row, then the first field.
fn two_samples_to_change(walk: &mut Walk, recording: &Recording) {
    let layout = recording.layout;
    if layout.kind == 1 {
        return;
    }
    let (rows, channels) = (layout.rows.min(3) as usize, layout.a.min(3) as usize);
    let places: Vec<(usize, usize)> = (0..rows).flat_map(|row| (1..=channels).map(move |place| (row, place))).collect();
    for &(row, place) in &places {
        for &(other_row, other_place) in &places {
            for room in [0, 5000] {
                walk.case(|| {
                    let recording = recording.with(row, place, 32_768).with(other_row, other_place, -32_768);
                    Case::Change { layout, file: recording.bytes(), new_kind: 1, room }
                });
            }
        }
    }
}

/// Every edge of a number in the places of a row that is written.
fn rows_to_write(walk: &mut Walk, layout: Layout) {
    let row = &Recording::plain(layout).rows[0];
    let (a, places) = (layout.a as usize, layout.places());
    let mut tried = vec![0, 1, 2, a.saturating_sub(1), a, a + 1, a + 2, places - 2, places - 1];
    tried.retain(|&place| place < places);
    tried.sort();
    tried.dedup();
    for place in tried {
        for number in SAMPLES.into_iter().chain(BEYOND) {
            walk.case(|| {
                let mut row = row.clone();
                row[place] = number;
                Case::WriteRow { layout, n: 1, row, room: 3000 }
            });
        }
    }
}

/// The last row written from too few places, enough and more, into too little room, enough and more.
fn rooms_to_write(walk: &mut Walk, recording: &Recording) {
    let layout = recording.layout;
    let row = &recording.rows[recording.rows.len() - 1];
    let exact = row_bytes(layout, layout.rows, row).len();
    for places in [0, 1, row.len() - 1, row.len(), row.len() + 1, row.len() + 60] {
        for room in [0, 1, exact - 1, exact, exact + 1, exact + 77] {
            walk.case(|| {
                let mut row = row.clone();
                row.resize(places, i64::MIN);
                Case::WriteRow { layout, n: layout.rows, row, room }
            });
        }
    }
}

/// Layout, row, sample, room: refused in this order, whichever else is wrong.
fn order_of_writing(walk: &mut Walk, layout: Layout) {
    for n in [0, 1, 3, 4, u32::MAX] {
        for places in 0..=7usize {
            for numbers in [
                [5, 6, -7, 0, 1],
                [-1, 6, 7, 0, 1],
                [5, 1 << 40, 7, 0, 1],
                [5, 6, 40_000, 0, 1],
                [5, 6, 7, 2, 1],
                [5, 6, 7, 1, -1],
            ] {
                let row: Vec<i64> = numbers.into_iter().chain([1 << 50, -9]).take(places).collect();
                walk.case(|| Case::WriteRow { layout, n, row: row.clone(), room: 0 });
                let exact = if places >= 5 { row_bytes(layout, n, &row[..5]).len() } else { 10 };
                for room in [exact - 1, exact, exact + 1, exact + 20] {
                    walk.case(|| Case::WriteRow { layout, n, row: row.clone(), room });
                }
            }
        }
    }
}

/// Row numbers and times where a decimal gets a digit more.
fn numbers_to_write(walk: &mut Walk, layout: Layout) {
    for power in 0..=6 {
        for n in [10u32.pow(power) - 1, 10u32.pow(power), 10u32.pow(power) + 1] {
            for more in [0, 1, 2] {
                walk.case(|| {
                    let row = vec![0, 0, 0];
                    let room = row_bytes(layout, n, &row).len() + more - 1;
                    Case::WriteRow { layout, n, row, room }
                });
            }
        }
    }
    for power in 0..=18 {
        for time in [10i64.pow(power) - 1, 10i64.pow(power), -(10i64.pow(power))] {
            walk.case(|| Case::WriteRow { layout, n: 7, row: vec![time, time, time & 1], room: 60 });
            walk.case(|| Case::WriteRow { layout, n: 7, row: vec![5, time, 1], room: 60 });
        }
    }
}

/// Damages that each break one rule of a file of two rows, A = 2, D = 3: the kind's own number for it stands beside.
fn breaks(recording: &Recording) -> Vec<Vec<u8>> {
    let file = &recording.bytes()[..];
    let mut list = vec![file.to_vec(), Vec::new(), file[..file.len() - 1].to_vec(), [file, b"x"].concat()];
    let row = file.len() / 2;
    if recording.layout.kind > 0 {
        for place in [0, 3, 4, 8, row - 3, row - 2, row - 1] {
            for start in [0, row] {
                list.push(spliced(file, start + place, 1, &[0x80 ^ file[start + place]]));
            }
        }
        return list;
    }
    let lines = recording.lines();
    let bad =
        [(0, "9"), (0, "x"), (1, "-1"), (2, "40000"), (2, "400000"), (3, "1x"), (3, ""), (4, "2"), (6, ""), (6, "0,0")];
    for line in 0..2 {
        for (field, bad) in bad.into_iter().chain([(3, "\x01")]) {
            let mut lines = lines.clone();
            lines[line][field] = String::from(bad);
            list.push(text(&lines, MARK));
        }
    }
    list
}

/// Two rules broken at once: the bytes of two damages side by side.
fn pairs(walk: &mut Walk, layout: Layout) {
    let list = breaks(&Recording::plain(layout));
    for (turn, one) in list.iter().enumerate() {
        for other in &list {
            let file = || {
                let half = one.len() / 2;
                [&one[..half], &other[half.min(other.len())..]].concat()
            };
            four_calls(walk, layout, turn, &file);
            walk.case(|| Case::Change { layout, file: file(), new_kind: 1, room: 0 });
            walk.case(|| Case::Row { layout, file: file(), n: 3, places: 0 });
            walk.case(|| Case::Row { layout, file: file(), n: 2, places: 0 });
        }
    }
}

/// A file of the most rows, and of one more and one less than it should have.
fn most_rows(walk: &mut Walk, layout: Layout) {
    let file = || plain_file(layout);
    walk.case(|| Case::Check { layout, file: file() });
    walk.case(|| Case::Row { layout, file: file(), n: 1_000_000, places: 2 });
    walk.case(|| change(layout, file(), (layout.kind + 1) % 3, 0));
    walk.case(|| Case::Check { layout: Layout { rows: 999_999, ..layout }, file: file() });
    walk.case(|| {
        let mut file = file();
        file.truncate(file.len() - 20);
        Case::Check { layout, file }
    });
}

/// Each field of a text row replaced by each spelling.
fn text_fields(walk: &mut Walk, edition: u32) {
    let layout = Layout::of(2, 2, 2, (0, edition));
    let lines = Recording::plain(layout).lines();
    for line in 0..2 {
        for field in 0..lines[line].len() {
            for (turn, spelling) in FIELDS.iter().enumerate() {
                let file = || {
                    let mut lines = lines.clone();
                    lines[line][field] = String::from(*spelling);
                    text(&lines, MARK)
                };
                for turn in [turn, turn + 1, turn + 3] {
                    four_calls(walk, layout, turn, &file);
                }
            }
        }
    }
}

/// Each ending after one row less than all, all rows, and one more.
fn endings(walk: &mut Walk) {
    for (a, d) in [(1, 1), (0, 2), (2, 0)] {
        for rows in 1..=3 {
            for (turn, ending) in ENDINGS.iter().enumerate() {
                let lines = Recording::plain(Layout::new(a, d, rows, 0)).lines();
                for layout in [Layout::new(a, d, 2, 0), Layout::new(a, d, rows, 0)] {
                    four_calls(walk, layout, turn, &|| text(&lines, ending));
                }
            }
        }
    }
}

/// Text rows of about 1,880 bytes, whatever they hold, and what may end them.
fn long_rows(walk: &mut Walk) {
    let starts: [&[u8]; 4] = [b"", b"1,0,5,", b"1,0,5,1\r\n", b"1,0,5,1\r\n2,0,5,"];
    let ends: [&[u8]; 9] = [b"", b"\r\n", b"\r", b"\n", b"\rX", b"X", b"0\r\n", b"1\r\n2,0,5,1\r\n", b"\x1a"];
    for start in starts {
        let done = start.iter().rposition(|&byte| byte == b'\n').map_or(0, |at| at + 1);
        for length in 1877..=1884usize {
            for byte in [b' ', b'0', b','] {
                for end in ends {
                    let fill = vec![byte; length + done - start.len()];
                    four_calls(walk, Layout::new(1, 1, 2, 0), length, &|| [start, &fill, end].concat());
                }
            }
        }
    }
}

/// The longest row that there is, 1,880 bytes, each field as long as it may be, and one field longer or shorter by one.
fn widest_rows(walk: &mut Walk, edition: u32) {
    let layout = Layout::of(96, 256, 1, (0, edition));
    let line = widest_line(1);
    four_calls(walk, layout, 1, &|| text(&[line.clone()], MARK));
    for field in [0, 1, 2, 50, 97, 98, 353] {
        for change in 0..4 {
            let file = || {
                let mut line = line.clone();
                match change {
                    0 => line[field].insert(0, ' '),
                    1 => line[field].insert(0, '0'),
                    2 => drop(line[field].remove(0)),
                    _ => line[field].push(' '),
                }
                text(&[line], MARK)
            };
            for ending in 0..3 {
                let cut = |bytes: Vec<u8>| bytes[..bytes.len() - [0, 3, 4][ending]].to_vec();
                four_calls(walk, layout, field, &|| cut(file()));
            }
        }
    }
}

/// Each number of a kind and of an edition, and those that are none, with sizes that are right, out of range, and with rows that there are not.
fn editions(walk: &mut Walk) {
    for (a, d, rows) in [(1, 1, 2), (2, 17, 1), (0, 0, 1), (97, 1, 1), (1, 257, 2), (1, 1, 0), (1, 1, 1_000_001)] {
        for kind in KINDS {
            for edition in EDITIONS {
                size(walk, Layout::of(a, d, rows, (kind, edition)));
            }
        }
    }
}

/// Reasons: each number, some that are none, and rooms about the lengths of texts.
fn reasons(walk: &mut Walk) {
    for number in (0..=20).chain([99, 1 << 31, u32::MAX - 1, u32::MAX]) {
        for room in (0..=200).chain([256, 1000, 4096]) {
            walk.case(|| Case::Reason { number, room });
        }
    }
}
