//! The tuned program gives the answers of the second one, and leaves the same bytes, on whole and damaged inputs.

mod made;

use bench::{of_second, tuned, Answer};
use dice::Dice;
use made::Recording;

/// How often each number was answered: a test that never meets a refusal says little about it.
struct Met([u32; 18]);

impl Met {
    fn note(&mut self, answer: Answer) {
        self.0[answer.number as usize] += 1;
    }

    fn all_of(&self, numbers: &[usize]) {
        for &number in numbers {
            assert!(self.0[number] >= 20, "{number} was answered {} times", self.0[number]);
        }
    }
}

/// Calls both programs on equal buffers and compares answers and buffers whole.
fn compare<T: Copy + PartialEq + std::fmt::Debug>(
    room: usize,
    fill: T,
    met: &mut Met,
    tuned: impl Fn(&mut [T]) -> Answer,
    second: impl Fn(&mut [T]) -> second::Answer,
) -> Answer {
    let (mut ours, mut theirs) = (vec![fill; room], vec![fill; room]);
    let answer = tuned(&mut ours);
    assert_eq!(answer, of_second(second(&mut theirs)));
    assert!(ours == theirs, "the buffers differ after {answer:?}");
    met.note(answer);
    answer
}

#[test]
fn files_are_checked_alike() {
    let (mut dice, mut met) = (Dice::new(1), Met([0; 18]));
    for _ in 0..60_000 {
        let Recording { layout, data, .. } = Recording::made(&mut dice);
        let answer = tuned::check(layout, &data);
        assert_eq!(answer, of_second(second::check(layout, &data)), "{layout:?} {data:?}");
        met.note(answer);
    }
    met.all_of(&[0, 10, 11, 12, 13, 14]);
}

#[test]
fn rows_are_shown_alike() {
    let (mut dice, mut met) = (Dice::new(2), Met([0; 18]));
    for _ in 0..30_000 {
        let Recording { layout, data, .. } = Recording::made(&mut dice);
        let n = dice.below(u64::from(layout.rows.min(10)) + 2) as u32;
        let room = (layout.a.min(96) + layout.d.min(256)) as usize + dice.below(3) as usize;
        let tuned = |shown: &mut [i64]| tuned::row(layout, &data, n, shown);
        compare(room, -9, &mut met, tuned, |shown| second::row(layout, &data, n, shown));
    }
    met.all_of(&[0, 10, 11, 12, 13, 14, 15, 17]);
}

#[test]
fn rows_are_written_alike() {
    let (mut dice, mut met) = (Dice::new(3), Met([0; 18]));
    for _ in 0..60_000 {
        let Recording { layout, values, .. } = Recording::made(&mut dice);
        let mut row = values[0].clone();
        if dice.once_in(4) {
            let place = dice.below(row.len() as u64) as usize;
            row[place] = made::odd_number(&mut dice);
        }
        if dice.once_in(20) {
            row.pop();
        }
        let n = dice.below(u64::from(layout.rows.min(1_000_000)) + 2) as u32;
        let tuned = |out: &mut [u8]| tuned::write_row(layout, n, &row, out);
        let second = |out: &mut [u8]| second::write_row(layout, n, &row, out);
        let length = compare(2_000, 0xEE, &mut met, tuned, second).length as usize;
        compare(length, 0xEE, &mut met, tuned, second);
        compare(length.saturating_sub(1), 0xEE, &mut met, tuned, second);
    }
    met.all_of(&[0, 10, 15, 16, 17]);
}

#[test]
fn kinds_are_changed_alike() {
    let (mut dice, mut met) = (Dice::new(4), Met([0; 18]));
    let mut carried = [0; 2];
    for _ in 0..40_000 {
        let Recording { layout, values, data } = Recording::made(&mut dice);
        let new_kind = if dice.once_in(40) { 3 } else { dice.below(3) as u32 };
        let needed = tuned::length(layout, &data, new_kind);
        assert_eq!(needed, of_second(second::length(layout, &data, new_kind)));
        let tuned = |out: &mut [u8]| tuned::change(layout, &data, new_kind, out);
        let second = |out: &mut [u8]| second::change(layout, &data, new_kind, out);
        let length = needed.length as usize;
        for room in [length + 5, length, length.saturating_sub(1)] {
            compare(room, 0xEE, &mut met, tuned, second);
        }
        let carries = needed.number == 0 && layout.kind != new_kind && values.concat().contains(&made::NONE);
        carried[usize::from(layout.edition == 1999)] += u32::from(carries);
    }
    met.all_of(&[0, 10, 11, 12, 13, 14, 16, 17]);
    assert!(carried.iter().all(|&count| count >= 500), "a missing sample was carried by {carried:?} changes");
}

#[test]
fn configurations_are_read_alike() {
    let (mut dice, mut met) = (Dice::new(5), Met([0; 18]));
    let mut without_date = [0; 3];
    for _ in 0..200_000 {
        let cfg = made::configuration(&mut dice);
        let room = if dice.once_in(50) { 34 } else { 37 };
        let tuned = |shown: &mut [i64]| tuned::config(&cfg, shown);
        let answer = compare(room, -9, &mut met, tuned, |shown| second::config(&cfg, shown));
        without_date[made::dates_of_zeros(&cfg)] += u32::from(answer.number == 0);
    }
    met.all_of(&[0, 2, 3, 4, 5, 6, 7, 8, 9, 17]);
    assert!(
        without_date.iter().all(|&count| count >= 500),
        "none, one and two lines had no date {without_date:?} times"
    );
    let long = vec![b'1'; 65_537];
    let mut shown = [0; 35];
    for cfg in [&long[..], &long[1..], &[]] {
        assert_eq!(tuned::config(cfg, &mut shown), of_second(second::config(cfg, &mut [0; 35])));
    }
}

#[test]
fn configurations_are_written_alike() {
    let (mut dice, mut met) = (Dice::new(6), Met([0; 18]));
    for _ in 0..100_000 {
        let cfg = made::configuration(&mut dice);
        let kind = if dice.once_in(20) { dice.pick(&[3, 4, u32::MAX]) } else { dice.below(3) as u32 };
        written_alike(&cfg, kind, &mut met);
    }
    met.all_of(&[0, 2, 3, 4, 5, 6, 7, 8, 9, 10, 17]);
}

/// A configuration written by both with ample, exact and too little room.
fn written_alike(cfg: &[u8], kind: u32, met: &mut Met) {
    let tuned = |out: &mut [u8]| tuned::write_config(cfg, kind, out);
    let second = |out: &mut [u8]| second::write_config(cfg, kind, out);
    let length = compare(cfg.len() + 8, 0xEE, met, tuned, second).length as usize;
    compare(length, 0xEE, met, tuned, second);
    compare(length.saturating_sub(1), 0xEE, met, tuned, second);
}

#[test]
fn the_longest_configurations_are_written_alike() {
    let (mut dice, mut met) = (Dice::new(7), Met([0; 18]));
    for size in 65_528..=65_538 {
        for word in ["ascii", "BINARY", "Binary32"] {
            let cfg = made::configuration_of_size(&mut dice, size, word);
            assert_eq!(cfg.len(), size);
            for cfg in [&cfg[..], &cfg[..size - 2]] {
                (0..4).for_each(|kind| written_alike(cfg, kind, &mut met));
            }
        }
    }
    met.all_of(&[0, 1, 10, 17]);
}
