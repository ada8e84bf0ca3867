//! Random calls: each with no fault or with some of those that it looks for,
//! and some with changes that were made without any thought.

use crate::case::{Call, Case};
use crate::common::random::Random;
use crate::compare::Compare;
use crate::fault::{flip, mutate, resize, scramble, spoil, Fault};
use crate::format::{COMBO_PLACE, THRESHOLD_PLACE};
use crate::tally::Tally;
use crate::{make, report, threads};
use second::vault::Combo;
use std::ops::Range;
use std::sync::atomic::{AtomicBool, Ordering};
use std::time::{Duration, Instant};
use std::{panic, thread};

/// How often a long run says how far it is.
const NEWS: Duration = Duration::from_secs(60);

/// So many calls have, by themselves, every end of every call among them.
const ENOUGH: u64 = 100_000;

/// Makes the calls with these numbers, and gives whether all agreed. Which
/// call is made follows from the seed and the number alone.
pub fn run(seed: u64, numbers: Range<u64>, tally: &mut Tally) -> bool {
    let start = Instant::now();
    let failed = &AtomicBool::new(false);
    let mut made = Tally::default();
    thread::scope(|scope| {
        let workers: Vec<_> = (0..threads())
            .map(|first| numbers.clone().skip(first).step_by(threads()))
            .map(|numbers| scope.spawn(move || work(seed, numbers, failed)))
            .collect();
        for worker in workers {
            made.add(&worker.join().expect("panics are caught"));
        }
    });
    let ok = !failed.load(Ordering::Relaxed);
    report("random calls", made.total(), start, ok);
    if ok && made.total() >= ENOUGH {
        made.assert_every_end();
    }
    tally.add(&made);
    ok
}

/// Makes calls until one fails, here or elsewhere.
fn work(seed: u64, numbers: impl Iterator<Item = u64>, failed: &AtomicBool) -> Tally {
    let mut compare = Compare::new(0);
    let mut news = Instant::now();
    for number in numbers {
        if failed.load(Ordering::Relaxed) {
            break;
        }
        compare.random = Random::new(seed_of(seed, number));
        let call = || one(&mut compare);
        if panic::catch_unwind(panic::AssertUnwindSafe(call)).is_err() {
            println!("FAILED: SEED={seed} FIRST={number} CALLS=1");
            failed.store(true, Ordering::Relaxed);
        }
        if news.elapsed() > NEWS {
            println!("SEED={seed}, at random call {number}");
            news = Instant::now();
        }
    }
    compare.tally
}

fn seed_of(seed: u64, number: u64) -> u64 {
    Random::new(seed).word() ^ Random::new(!number).word()
}

fn one(compare: &mut Compare) {
    let call = Call::ALL[compare.random.below(Call::ALL.len())];
    let combo = Combo::ALL[compare.random.below(Combo::ALL.len())];
    let case = random_case(call, combo, &mut compare.random);
    compare.end(&case);
}

fn random_case(call: Call, combo: Combo, random: &mut Random) -> Case {
    let mut case = make::case(call, random, combo);
    let faults = [0, 1, 1, 2][random.below(4)];
    let mut places: Vec<_> = (0..faults)
        .map(|_| random.below(call.faults().len()))
        .collect();
    places.sort();
    places.dedup();
    for place in places.into_iter().rev() {
        let fault = call.faults()[place];
        // A cleartext over the limit takes longer than many other calls.
        if (call, fault) != (Call::WriteFile, Fault::Length) || random.below(20) == 0 {
            spoil(&mut case, fault, random);
        }
    }
    if random.below(4) == 0 {
        for _ in 0..1 + random.below(3) {
            change(&mut case, random);
        }
    }
    match (call, random.below(3)) {
        (Call::OpenLabel, 0) => mutate(&mut case, random),
        (Call::OpenLabel, 1) => scramble(&mut case, random),
        (Call::OpenName | Call::OpenLongName, 0 | 1) => scramble(&mut case, random),
        _ => {}
    }
    if let Some(record) = case.record_mut().filter(|_| random.below(20) == 0) {
        let (place, byte) = match random.below(2) {
            0 => (COMBO_PLACE, random.below(4)),
            _ => (THRESHOLD_PLACE, random.below(256)),
        };
        if let Some(old) = record.get_mut(place) {
            *old = byte as u8;
        }
    }
    case
}

fn change(case: &mut Case, random: &mut Random) {
    let Case {
        call,
        inputs,
        numbers,
        buffers,
    } = case;
    let place = random.below(inputs.len() + numbers.len() + buffers.len());
    if let Some(input) = inputs.get_mut(place) {
        change_bytes(input, random);
    } else if let Some(number) = numbers.get_mut(place - inputs.len()) {
        *number = match random.below(4) {
            0 => random.word() >> random.below(64),
            1 => number.wrapping_add(1),
            2 => number.wrapping_sub(1),
            _ => *number ^ 1 << random.below(64),
        };
    } else {
        let buffer = &mut buffers[place - inputs.len() - numbers.len()];
        match call {
            Call::Mend => change_bytes(buffer, random),
            _ => {
                let len = random.below(buffer.len() + 40);
                resize(buffer, len, random);
            }
        }
    }
}

/// Changes the length or a bit.
fn change_bytes(bytes: &mut Vec<u8>, random: &mut Random) {
    let len = bytes.len();
    match random.below(4) {
        0 => resize(bytes, len + 1 + random.below(40), random),
        1 => bytes.truncate(len - random.below(len.min(40) + 1)),
        _ if len > 0 => flip(bytes, random),
        _ => {}
    }
}
