//! The jobs: one pass of each, by any of the programs.

use crate::programs::Program;
use crate::recording::{time, Recording};
use bench::Answer;

const KINDS: [&str; 3] = ["ASCII", "binary", "binary32"];

/// The edition of all jobs but the checks that say another.
const EDITION: u32 = 2013;

/// The kind for which configurations are written: binary, which theirs is too.
const WRITTEN_KIND: u32 = 1;

/// Which configuration is written.
#[derive(Clone, Copy, PartialEq, Eq)]
pub enum Source {
    Own,
    Longest,
}

/// One job on files of one kind.
#[derive(Clone, Copy, PartialEq, Eq)]
pub enum Job {
    Config,
    WriteConfig(Source),
    /// The kind and the edition.
    Check(u32, u32),
    Show(u32),
    Write(u32),
    Change(u32, u32),
}

impl Job {
    /// Every job, in the order of the tables.
    pub fn all() -> Vec<Job> {
        let mut jobs = vec![Job::Config, Job::WriteConfig(Source::Own), Job::WriteConfig(Source::Longest)];
        jobs.extend((0..3).map(|kind| Job::Check(kind, EDITION)));
        jobs.push(Job::Check(0, 1999));
        jobs.extend((0..3).map(Job::Show));
        jobs.extend((0..3).map(Job::Write));
        jobs.extend((0..9).map(|pair| Job::Change(pair / 3, pair % 3)));
        jobs
    }

    pub fn name(self) -> &'static str {
        match self {
            Job::Config => "config",
            Job::WriteConfig(_) => "write-config",
            Job::Check(..) => "check",
            Job::Show(_) => "show",
            Job::Write(_) => "write",
            Job::Change(..) => "change",
        }
    }

    pub fn kinds(self) -> String {
        match self {
            Job::Config | Job::WriteConfig(Source::Own) => "text".to_string(),
            Job::WriteConfig(Source::Longest) => "longest text".to_string(),
            Job::Check(kind, 1999) => format!("{} of 1999", KINDS[kind as usize]),
            Job::Check(kind, _) | Job::Show(kind) | Job::Write(kind) => KINDS[kind as usize].to_string(),
            Job::Change(old, new) => format!("{} to {}", KINDS[old as usize], KINDS[new as usize]),
        }
    }

    /// Whether text is read or written.
    pub fn has_text(self) -> bool {
        match self {
            Job::Config | Job::WriteConfig(_) => true,
            Job::Check(kind, _) | Job::Show(kind) | Job::Write(kind) => kind == 0,
            Job::Change(old, new) => old == 0 || new == 0,
        }
    }

    /// Whether the recording has what the job needs.
    pub fn fits(self, recording: &Recording) -> bool {
        self != Job::WriteConfig(Source::Longest) || recording.longest_cfg.is_some()
    }

    /// How many calls of one pass each walk the whole file.
    pub fn walks(self, recording: &Recording) -> u64 {
        match self {
            Job::Show(_) => recording.shown.len() as u64,
            _ => 1,
        }
    }

    /// The bytes of one pass that reported `length`: read by config, write-config, check and change; walked by show, in
    /// each of its calls; written by write.
    pub fn bytes(self, recording: &Recording, length: u64) -> u64 {
        let file = |kind: u32| recording.files[kind as usize].len() as u64;
        match self {
            Job::Config => recording.cfg.len() as u64,
            Job::WriteConfig(source) => source_cfg(recording, source).len() as u64,
            Job::Check(kind, _) | Job::Show(kind) | Job::Change(kind, _) => file(kind) * self.walks(recording),
            Job::Write(_) => length,
        }
    }

    /// The rows that one pass goes through; a configuration counts as one.
    pub fn rows_walked(self, recording: &Recording) -> u64 {
        match self {
            Job::Config | Job::WriteConfig(_) => 1,
            _ => u64::from(recording.rows) * self.walks(recording),
        }
    }
}

/// The configuration that is written.
fn source_cfg(recording: &Recording, source: Source) -> &[u8] {
    match source {
        Source::Own => &recording.cfg,
        Source::Longest => recording.longest_cfg.as_deref().unwrap_or_default(),
    }
}

/// Buffers lent to every pass, made and touched once and used again.
pub struct Buffers {
    out: Vec<u8>,
    shown: Vec<i64>,
    /// Rows to be written, one after the other and then from the first again.
    rows: Vec<Vec<i64>>,
}

impl Buffers {
    pub fn new(recording: &Recording) -> Buffers {
        let places = (1 + recording.a + recording.d) as usize;
        let out = vec![0xEE; recording.most_bytes()];
        Buffers { out, shown: vec![-1; places.max(35)], rows: recording.kept.clone() }
    }

    /// Fills what the programs write, so that a pass that writes nothing is found out.
    pub fn clear(&mut self) {
        self.out.fill(0xEE);
        self.shown.fill(-1);
    }

    /// A sum over all that a pass may have written, by words.
    pub fn sum(&self) -> u64 {
        let fold = |sum: u64, word: u64| sum.rotate_left(5) ^ word.wrapping_mul(0x9E37_79B9_7F4A_7C15);
        let words = self.out.chunks_exact(8);
        let rest = words.remainder().iter().fold(0, |sum, &byte| fold(sum, u64::from(byte)));
        let out = words.map(|word| u64::from_le_bytes(word.try_into().unwrap_or_default())).fold(rest, fold);
        self.shown.iter().fold(out, |sum, &place| fold(sum, place as u64))
    }
}

/// One pass of a job; the length that the answers reported. Every call has to say yes.
pub fn pass(job: Job, program: &Program, recording: &Recording, buffers: &mut Buffers) -> u64 {
    let Recording { ref cfg, ref files, .. } = *recording;
    let data = |kind: u32| &files[kind as usize][..];
    let layout = |kind: u32| recording.layout(kind, EDITION);
    match job {
        Job::Config => accepted((program.config)(cfg, &mut buffers.shown)),
        Job::WriteConfig(source) => {
            accepted((program.write_config)(source_cfg(recording, source), WRITTEN_KIND, &mut buffers.out))
        }
        Job::Check(kind, edition) => accepted((program.check)(recording.layout(kind, edition), data(kind))),
        Job::Show(kind) => {
            let each = |n| accepted((program.row)(layout(kind), data(kind), n, &mut buffers.shown));
            recording.shown.iter().copied().map(each).sum()
        }
        Job::Write(kind) => write_all(program, recording, kind, buffers),
        Job::Change(old, new) => accepted((program.change)(layout(old), data(old), new, &mut buffers.out)),
    }
}

/// Writes every row after the one before it. A row kept serves for many numbers; its time is set to the number's.
fn write_all(program: &Program, recording: &Recording, kind: u32, buffers: &mut Buffers) -> u64 {
    let layout = recording.layout(kind, EDITION);
    let Buffers { out, rows: kept, .. } = buffers;
    let (mut at, mut next) = (0, 0);
    for n in 1..=layout.rows {
        let row = &mut kept[next][..];
        row[0] = time(n);
        at += accepted((program.write_row)(layout, n, row, &mut out[at as usize..]));
        next = if next + 1 < kept.len() { next + 1 } else { 0 };
    }
    at
}

fn accepted(answer: Answer) -> u64 {
    assert_eq!(answer.number, 0, "a file made to pass was refused: {answer:?}");
    u64::from(answer.length)
}
