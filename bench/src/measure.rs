//! Timing: the programs take turns, round after round, and the best round of each counts.

use crate::clock;
use crate::jobs::{pass, Buffers, Job};
use crate::programs::{COUNT, PROGRAMS};
use crate::recording::Recording;
use std::time::{Duration, Instant};

/// A pass of more seconds than this is long enough by itself, and is not repeated.
const LONGEST_REPEATED: f64 = 8.0;

/// How long one job on one recording is measured.
#[derive(Clone, Copy)]
pub struct Effort {
    /// Rounds are added until this time is used up, within the two numbers of rounds.
    pub time: Duration,
    pub least_rounds: u32,
    pub most_rounds: u32,
    /// Passes are repeated within a round up to about this time, so that the clock's own cost does not count.
    pub turn: Duration,
}

/// What was measured.
pub struct Figure {
    pub job: Job,
    pub a: u32,
    pub d: u32,
    pub rows: u32,
    pub wanted_rows: u32,
    pub bytes: u64,
    pub rows_walked: u64,
    /// Calls that each walk the whole file.
    pub walks: u64,
    pub rounds: u32,
    /// Seconds of one pass by each program, the best round.
    pub best: [f64; COUNT],
}

impl Figure {
    /// Millions of bytes a second.
    pub fn speed(&self, program: usize) -> f64 {
        self.bytes as f64 / self.best[program] / 1e6
    }

    /// How many times as fast as another program.
    pub fn ratio(&self, program: usize, other: usize) -> f64 {
        self.best[other] / self.best[program]
    }

    /// Nanoseconds for each row walked.
    pub fn row_cost(&self, program: usize) -> f64 {
        self.best[program] * 1e9 / self.rows_walked as f64
    }
}

/// Measures one job: the first round also compares what the programs write, then rounds follow as the effort allows.
pub fn measure(job: Job, recording: &Recording, buffers: &mut Buffers, effort: Effort) -> Figure {
    let begun = Instant::now();
    let (length, mut best) = first_round(job, recording, buffers);
    let repeats = best.map(|seconds| (effort.turn.as_secs_f64() / seconds).ceil().clamp(1.0, 1e6) as u32);
    let mut rounds = 1;
    while rounds < effort.least_rounds || rounds < effort.most_rounds && begun.elapsed() < effort.time {
        for (index, program) in PROGRAMS.iter().enumerate() {
            if best[index] > LONGEST_REPEATED {
                continue;
            }
            let start = clock::now();
            for _ in 0..repeats[index] {
                std::hint::black_box(pass(job, program, recording, buffers));
            }
            best[index] = best[index].min((clock::now() - start) / f64::from(repeats[index]));
        }
        rounds += 1;
    }
    Figure {
        job,
        a: recording.a,
        d: recording.d,
        rows: recording.rows,
        wanted_rows: recording.wanted_rows,
        bytes: job.bytes(recording, length),
        rows_walked: job.rows_walked(recording),
        walks: job.walks(recording),
        rounds,
        best,
    }
}

/// One pass by each program into buffers filled anew, all of which have to report and write the same; the length
/// reported and the seconds of each.
fn first_round(job: Job, recording: &Recording, buffers: &mut Buffers) -> (u64, [f64; COUNT]) {
    let mut best = [0.0; COUNT];
    let mut seen = None;
    for (seconds, program) in best.iter_mut().zip(&PROGRAMS) {
        buffers.clear();
        let start = clock::now();
        let length = std::hint::black_box(pass(job, program, recording, buffers));
        *seconds = clock::now() - start;
        let result = (length, buffers.sum());
        let same = *seen.get_or_insert(result) == result;
        assert!(same, "{}: {} {} differs from the other programs", program.name, job.name(), job.kinds());
    }
    (seen.map_or(0, |(length, _)| length), best)
}
