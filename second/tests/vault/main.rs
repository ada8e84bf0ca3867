//! Compares the static library with `second` through the C boundary: the row
//! or success of each call, its numbers, and every byte of its buffers.
//!
//! The parts run side by side, most of them with each combo. At the end each
//! call must have been done and must have given each of its rows, with each
//! combo. The environment can set
//! - `SEED`, the number from which all random choices follow;
//! - `CALLS`, how many random calls are made beside the parts;
//! - `FIRST`, the number of the first of them, to make one again that failed.
//!
//! An argument that is not an option picks the parts whose names have it.

#[path = "../common"]
mod common {
    pub mod fields;
    pub mod labels;
    pub mod random;
    pub mod readers;
    pub mod text;
}

mod case;
mod chunks;
mod compare;
mod counters;
mod distinct;
mod exchange;
mod fault;
mod file_damage;
mod files;
mod format;
mod headers;
mod keys;
mod known;
mod labels;
mod lengths;
mod library;
mod log;
mod longest;
mod make;
mod mends;
mod names;
mod neighbours;
mod order;
mod other_combo;
mod part;
mod places;
mod points;
mod predict;
mod proper_text;
mod random_calls;
mod ranges;
mod readers;
mod stock_program;
mod tally;
mod texts;
mod thresholds;
mod vaults;

use compare::Compare;
use part::{Job, Part};
use std::num::NonZero;
use std::process::ExitCode;
use std::sync::atomic::{AtomicUsize, Ordering};
use std::sync::Mutex;
use std::time::Instant;
use std::{env, panic, thread};
use tally::Tally;

const PARTS: [&[Part]; 20] = [
    longest::PARTS,
    files::PARTS,
    file_damage::PARTS,
    ranges::PARTS,
    chunks::PARTS,
    texts::PARTS,
    names::PARTS,
    proper_text::PARTS,
    order::PARTS,
    exchange::PARTS,
    headers::PARTS,
    vaults::PARTS,
    thresholds::PARTS,
    other_combo::PARTS,
    counters::PARTS,
    keys::PARTS,
    lengths::PARTS,
    points::PARTS,
    stock_program::PARTS,
    distinct::PARTS,
];

/// The least number of calls that a whole run compares.
const LEAST: u64 = 100_000;

fn main() -> ExitCode {
    let seed = number("SEED", 1);
    let first = number("FIRST", 0);
    let calls = number("CALLS", 200_000);
    let filters: Vec<_> = env::args()
        .skip(1)
        .filter(|arg| !arg.starts_with('-'))
        .collect();
    let wanted = |name: &str| filters.is_empty() || filters.iter().any(|part| name.contains(part));
    let parts = [
        PARTS.concat(),
        mends::PARTS.concat(),
        readers::PARTS.concat(),
        neighbours::PARTS.concat(),
        places::PARTS.concat(),
        labels::PARTS.concat(),
    ]
    .concat();
    let mut jobs: Vec<_> = parts.into_iter().flat_map(part::jobs).collect();
    jobs.retain(|job| wanted(&job.name));
    println!("SEED={seed} FIRST={first} CALLS={calls}");

    let mut tally = Tally::default();
    let mut failed = run(&jobs, seed, &mut tally);
    if wanted("random calls") {
        failed |= !random_calls::run(seed, first..first.saturating_add(calls), &mut tally);
    }
    println!("{tally}\n{} calls compared", tally.total());
    if failed {
        return ExitCode::FAILURE;
    }
    if filters.is_empty() {
        tally.assert_every_end();
        assert!(tally.total() >= LEAST, "too few calls");
    }
    ExitCode::SUCCESS
}

/// A number from the environment.
fn number(name: &str, default: u64) -> u64 {
    match env::var(name) {
        Ok(text) => text
            .parse()
            .unwrap_or_else(|_| panic!("{name} is no number")),
        Err(_) => default,
    }
}

fn threads() -> usize {
    thread::available_parallelism().map_or(1, NonZero::get)
}

/// Prints how a part ended.
fn report(name: &str, calls: u64, start: Instant, ok: bool) {
    let time = start.elapsed().as_secs_f64();
    let verdict = if ok { "ok" } else { "FAILED" };
    println!("{name:57} {calls:>7} calls {time:>6.1} s {verdict}");
}

/// Does the jobs, and gives whether one failed.
fn run(jobs: &[Job], seed: u64, tally: &mut Tally) -> bool {
    let next = AtomicUsize::new(0);
    let failed = AtomicUsize::new(0);
    let tally = Mutex::new(tally);
    let work = || {
        while let Some(job) = jobs.get(next.fetch_add(1, Ordering::Relaxed)) {
            let start = Instant::now();
            let mut compare = Compare::new(seed);
            let outcome = panic::catch_unwind(panic::AssertUnwindSafe(|| (job.run)(&mut compare)));
            failed.fetch_add(usize::from(outcome.is_err()), Ordering::Relaxed);
            report(&job.name, compare.tally.total(), start, outcome.is_ok());
            tally.lock().expect("no panic with it").add(&compare.tally);
        }
    };
    thread::scope(|scope| {
        for _ in 0..threads() {
            scope.spawn(work);
        }
    });
    failed.into_inner() > 0
}
