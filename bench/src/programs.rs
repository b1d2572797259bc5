//! The three programs behind one set of calls, each reached through pointers, so that none is built into the loop
//! around it.

use bench::{library, of_second, tuned, Answer, LayoutNumbers};

/// The calls that are measured.
pub struct Program {
    pub name: &'static str,
    pub config: fn(&[u8], &mut [i64]) -> Answer,
    pub write_config: fn(&[u8], u32, &mut [u8]) -> Answer,
    pub check: fn(LayoutNumbers, &[u8]) -> Answer,
    pub row: fn(LayoutNumbers, &[u8], u32, &mut [i64]) -> Answer,
    pub write_row: fn(LayoutNumbers, u32, &[i64], &mut [u8]) -> Answer,
    pub change: fn(LayoutNumbers, &[u8], u32, &mut [u8]) -> Answer,
}

/// How many programs there are.
pub const COUNT: usize = 3;

/// The places of the programs in every list of figures.
pub const LIBRARY: usize = 0;
pub const SECOND: usize = 1;
pub const TUNED: usize = 2;

pub const PROGRAMS: [Program; COUNT] = [
    Program {
        name: "library",
        config: library::config,
        write_config: library::write_config,
        check: library::check,
        row: library::row,
        write_row: library::write_row,
        change: library::change,
    },
    Program {
        name: "second",
        config: |cfg, shown| of_second(second::config(cfg, shown)),
        write_config: |cfg, kind, out| of_second(second::write_config(cfg, kind, out)),
        check: |layout, data| of_second(second::check(layout, data)),
        row: |layout, data, n, shown| of_second(second::row(layout, data, n, shown)),
        write_row: |layout, n, row, out| of_second(second::write_row(layout, n, row, out)),
        change: |layout, data, new, out| of_second(second::change(layout, data, new, out)),
    },
    Program {
        name: "tuned",
        config: tuned::config,
        write_config: tuned::write_config,
        check: tuned::check,
        row: tuned::row,
        write_row: tuned::write_row,
        change: tuned::change,
    },
];
