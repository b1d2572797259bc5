//! Runs the proved library and the second program on the same cases and compares every answer, every place and every byte.

mod buffer;
mod calls;
mod case;
mod configs;
mod damage;
mod data;
mod draft;
mod files;
mod judge;
mod kept;
mod lent;
mod library;
mod misfits;
mod missing;
mod no_date;
mod random;
mod rewritten;
mod rules;
mod seams;
mod spellings;
mod tally;
mod walk;
mod watch;
mod words;

use case::Case;
use judge::{Expected, Judge, Judged};
use std::process::ExitCode;
use std::sync::atomic::{AtomicBool, AtomicU64, Ordering};
use std::time::{Duration, Instant};
use tally::Tally;
use walk::{Family, Number, Walk, Wanted, FAMILIES};

/// What the program is asked to do.
struct Settings {
    seed: u64,
    cases: u64,
    threads: usize,
    only: Option<Number>,
}

/// Cases that differ and are printed; the others are only counted.
const PRINTED: usize = 5;

/// Bytes of a case that are printed where it is not the only one.
const SHORT: usize = 600;

/// What a thread found.
#[derive(Default)]
struct Found {
    tally: Tally,
    cases: u64,
    differ: u64,
    said: Vec<String>,
}

/// What the threads share: the blocks of cases that are taken, family by family, how many cases are done, and whether all are.
#[derive(Default)]
struct Shared {
    blocks: [AtomicU64; 3],
    done: AtomicU64,
    ended: AtomicBool,
}

/// The settings that the arguments give, or nothing if they are misspelled.
fn settings(mut words: impl Iterator<Item = String>) -> Option<Settings> {
    let mut settings = Settings { seed: 1, cases: 0, threads: 2, only: None };
    while let Some(word) = words.next() {
        let value = words.next()?;
        match word.as_str() {
            "--seed" => settings.seed = value.parse().ok()?,
            "--cases" => settings.cases = value.parse().ok()?,
            "--threads" => settings.threads = value.parse().ok().filter(|&threads| threads > 0)?,
            "--only" => settings.only = Some(Number::parse(&value)?),
            _ => return None,
        }
    }
    Some(settings)
}

/// Walks over a family's cases; the random ones are as many as are left to fill up the number asked for.
fn walk_family(walk: &mut Walk, family: Family, settings: &Settings, random: u64) {
    match family {
        Family::Kept => kept::walk(walk),
        Family::Systematic => {
            configs::walk(walk);
            rewritten::walk(walk);
            no_date::walk(walk);
            data::walk(walk);
            seams::walk(walk);
            spellings::walk(walk);
            misfits::walk(walk);
            missing::walk(walk);
        }
        Family::Random => walk.indexed(random, |index| random::case(settings.seed, index)),
    }
}

/// How many cases a family has that is not random.
fn count(family: Family, settings: &Settings) -> u64 {
    let mut visit = |_, _, _| ();
    let mut walk = Walk::new(Wanted::Nothing, &mut visit);
    walk_family(&mut walk, family, settings, 0);
    walk.passed()
}

/// The line of a case that differs, kept short.
fn shortened(case: &Case) -> String {
    let line = case.to_string();
    match line.get(..SHORT) {
        Some(start) => format!("{start}... ({} characters)", line.len()),
        None => line,
    }
}

/// A judge, and what it found so far.
struct Worker {
    judge: Judge,
    found: Found,
    seed: u64,
}

impl Worker {
    fn new(settings: &Settings, reasons: &[Vec<u8>]) -> Worker {
        Worker { judge: Judge::new(reasons), found: Found::default(), seed: settings.seed }
    }

    /// Judges one case and notes what came of it.
    fn take(&mut self, number: Number, case: &Case, expected: Option<&Expected>) {
        watch::begin(number);
        self.found.cases += 1;
        match self.judge.judge(case, expected, dice::mix(number.packed())) {
            Ok(Judged { answer, missing }) => self.found.tally.count(number.family, case, answer, missing),
            Err(what) => {
                self.found.differ += 1;
                if self.found.said.len() < PRINTED {
                    let again = format!("--seed {} --only {number}", self.seed);
                    self.found.said.push(format!("{again}: {what}\n    {}", shortened(case)));
                }
            }
        }
    }
}

/// One thread's part of all cases.
fn work(settings: &Settings, shared: &Shared, random: u64, reasons: &[Vec<u8>]) -> Found {
    let mut worker = Worker::new(settings, reasons);
    for family in FAMILIES {
        let mut visit = |index, case: Case, expected: Option<Expected>| {
            worker.take(Number { family, index }, &case, expected.as_ref());
            shared.done.fetch_add(1, Ordering::Relaxed);
        };
        let mut walk = Walk::new(Wanted::Share(&shared.blocks[family as usize]), &mut visit);
        walk_family(&mut walk, family, settings, random);
    }
    worker.found
}

/// Says now and then how far the threads are, until they end.
fn tell_progress(shared: &Shared, all: u64) {
    let mut told = Instant::now();
    while !shared.ended.load(Ordering::Relaxed) {
        std::thread::sleep(Duration::from_millis(50));
        if told.elapsed() >= Duration::from_secs(10) {
            told = Instant::now();
            eprintln!("compare: {} of {all} cases", shared.done.load(Ordering::Relaxed));
        }
    }
}

/// Runs all cases in threads and puts together what they found.
fn run(settings: &Settings, reasons: &[Vec<u8>]) -> Found {
    let (kept, systematic) = (count(Family::Kept, settings), count(Family::Systematic, settings));
    let random = settings.cases.saturating_sub(kept + systematic);
    let shared = Shared::default();
    let mut all = Found::default();
    let seed = settings.seed;
    eprintln!("compare: {kept} kept cases, {systematic} systematic and {random} random ones, seed {seed}");
    std::thread::scope(|scope| {
        let workers: Vec<_> =
            (0..settings.threads).map(|_| scope.spawn(|| work(settings, &shared, random, reasons))).collect();
        scope.spawn(|| tell_progress(&shared, kept + systematic + random));
        for worker in workers {
            let Ok(found) = worker.join() else { std::process::exit(1) };
            all.tally.add(&found.tally);
            all.cases += found.cases;
            all.differ += found.differ;
            all.said.extend(found.said);
        }
        shared.ended.store(true, Ordering::Relaxed);
    });
    all
}

/// Runs one case, printed whole before it is run.
fn run_only(settings: &Settings, number: Number, reasons: &[Vec<u8>]) -> Found {
    let mut worker = Worker::new(settings, reasons);
    let mut visit = |_, case: Case, expected: Option<Expected>| {
        println!("{case}");
        worker.take(number, &case, expected.as_ref());
    };
    let mut walk = Walk::new(Wanted::Only(number.index), &mut visit);
    walk_family(&mut walk, number.family, settings, 0);
    worker.found
}

fn main() -> ExitCode {
    let start = Instant::now();
    let Some(settings) = settings(std::env::args().skip(1)) else {
        eprintln!("usage: compare [--seed N] [--cases N] [--threads N] [--only CASE]");
        return ExitCode::from(2);
    };
    watch::start(settings.seed);
    let reasons = match judge::reasons() {
        Ok(reasons) => reasons,
        Err(what) => {
            println!("compare: reasons: {what}");
            return ExitCode::from(1);
        }
    };
    let mut found = match settings.only {
        Some(number) => run_only(&settings, number, &reasons),
        None => run(&settings, &reasons),
    };
    if settings.only.is_none() {
        println!("{}\n", found.tally.tables());
        let never_given = found.tally.never_given();
        found.differ += never_given.len() as u64;
        found.said.splice(0..0, never_given);
    }
    found.said.truncate(PRINTED);
    for what in &found.said {
        println!("{what}");
    }
    let seconds = start.elapsed().as_secs_f64();
    println!("compare: {} cases, {} differ (seed {}, {seconds:.1} s)", found.cases, found.differ, settings.seed);
    ExitCode::from(u8::from(found.differ > 0 || found.cases == 0))
}
