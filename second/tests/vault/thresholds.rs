//! Thresholds of vaults: names around each of them, and those that are none.

use crate::case::{Call, Case, End};
use crate::compare::Compare;
use crate::fault::{spoil, Fault};
use crate::format::{full_len, longest_plain, COMBO_PLACE, LONGEST_NAME, THRESHOLDS};
use crate::make;
use crate::part::Part;
use crate::part::Run::{Each, Once};
use second::vault::Combo;

pub const PARTS: &[Part] = &[
    ("thresholds: names around each", Each(names)),
    ("thresholds: names of every length", Each(every_length)),
    ("thresholds: names of another threshold", Each(another)),
    ("thresholds: sizes of buffers", Each(buffers)),
    ("thresholds: made with every number", Each(made)),
    ("thresholds: row 18 before all others", Each(before_others)),
    ("thresholds: row 1 before row 18", Each(behind_size)),
    ("thresholds: not looked at", Each(not_looked_at)),
    ("thresholds: from label to name", Once(from_label)),
];

/// The bytes that are no thresholds.
fn others() -> impl Iterator<Item = u8> {
    (0..=255).filter(|byte| !THRESHOLDS.contains(byte))
}

/// The calls that look at it.
fn calls() -> impl Iterator<Item = Call> {
    Call::ALL.into_iter().filter(|call| call.is_by_threshold())
}

/// Writes a name, and opens it by both openers.
fn around(compare: &mut Compare, combo: Combo, threshold: u8, len: usize) {
    let full = full_len(len);
    let plain = full <= threshold.into();
    let mut write = make::write_name_at(&mut compare.random, combo, threshold, len);
    write.buffers = [220, 1388].map(|len| compare.random.bytes(len)).to_vec();
    let End {
        row, length, other, ..
    } = compare.end(&write);
    let lengths = if plain { (full, 0) } else { (32, full) };
    assert_eq!(
        (row, length, other),
        (0, lengths.0 as u64, lengths.1 as u64)
    );

    let long = make::open_long_name_at(&mut compare.random, combo, threshold, len);
    assert_eq!(compare.row(&long), if plain { 11 } else { 0 });
    let mut short = long.clone();
    short.call = Call::OpenName;
    short.inputs.remove(2);
    assert_eq!(compare.row(&short), if plain { 0 } else { 5 });
}

fn names(compare: &mut Compare, combo: Combo) {
    for threshold in THRESHOLDS {
        let near = (1..=170).filter(|&len| full_len(len).abs_diff(threshold.into()) <= 8);
        for len in near.collect::<Vec<_>>() {
            around(compare, combo, threshold, len);
        }
        around(compare, combo, threshold, 1);
        around(compare, combo, threshold, LONGEST_NAME);
        let plain = longest_plain(threshold);
        assert!(full_len(plain) <= threshold.into() && full_len(plain + 1) > threshold.into());
    }
}

fn every_length(compare: &mut Compare, combo: Combo) {
    for threshold in [36, 37, 100, 128, 219] {
        for len in (1..=200).chain(LONGEST_NAME - 5..=LONGEST_NAME) {
            around(compare, combo, threshold, len);
        }
        for len in [0, LONGEST_NAME + 1] {
            let write = make::write_name_at(&mut compare.random, combo, threshold, len);
            assert_eq!(compare.row(&write), 3);
        }
    }
}

/// A name that was written with one threshold is opened with all others.
fn another(compare: &mut Compare, combo: Combo) {
    for len in [1, 8, 9, 50, 100, 146, 147] {
        let full = full_len(len);
        let long = make::open_long_name(&mut compare.random, combo, len);
        for threshold in THRESHOLDS {
            let mut long = long.clone();
            long.inputs[0] = make::with_threshold(&long.inputs[0], threshold);
            let plain = full <= threshold.into();
            assert_eq!(compare.row(&long), if plain { 11 } else { 0 });
            let mut short = long;
            short.call = Call::OpenName;
            short.inputs.remove(2);
            assert_eq!(compare.row(&short), if plain { 0 } else { 5 });
        }
    }
}

/// The second is looked at for a shortened name only.
fn buffers(compare: &mut Compare, combo: Combo) {
    for threshold in [36, 60, 61, 63, 64, 220] {
        for len in [1, 8, 9, 26, 27, 29, 30, 146, 147] {
            let write = make::write_name_at(&mut compare.random, combo, threshold, len);
            let full = full_len(len);
            for stored_len in [0, 31, 32, 33, full - 1, full, full + 1] {
                for full_len in [0, full - 1, full, full + 1] {
                    let mut sized = write.clone();
                    let lens = [stored_len, full_len];
                    sized.buffers = lens.map(|len| compare.random.bytes(len)).to_vec();
                    let fits = if full <= threshold.into() {
                        stored_len >= full
                    } else {
                        stored_len >= 32 && full_len >= full
                    };
                    assert_eq!(compare.row(&sized), if fits { 0 } else { 7 });
                }
            }
        }
    }
}

/// Small numbers, those from each power of two on, and the largest; each also
/// with every other fault that the making looks for.
fn made(compare: &mut Compare, combo: Combo) {
    let powers = (0..32).flat_map(|bit| {
        let power = 1u32 << bit;
        [0, 1, 35, 36, 100, 220, 221].map(|more| power.wrapping_add(more))
    });
    let largest = u32::MAX - 300..=u32::MAX;
    for number in (0..=1000).chain(powers).chain(largest) {
        let mut case = make::make_vault(&mut compare.random, combo);
        case.numbers[1] = number.into();
        let right = (36..=220).contains(&number);
        let end = compare.end(&case);
        assert_eq!(end.row, if right { 0 } else { 18 });
        if right {
            let numbers = [combo.number(), number as u8];
            assert_eq!(end.buffers[0][COMBO_PLACE..][..2], numbers);
        }
        for fault in [Fault::KeyOrNonceSize, Fault::Room, Fault::Combo] {
            let mut spoiled = case.clone();
            assert!(spoil(&mut spoiled, fault, &mut compare.random));
            assert_eq!(compare.row(&spoiled), fault.row());
        }
    }
}

/// One of each call that looks at the threshold, with its largest.
fn each_call(compare: &mut Compare, combo: Combo) -> Vec<Case> {
    calls()
        .map(|call| make::case(call, &mut compare.random, combo))
        .collect()
}

/// With all else right, with each other fault but that of the size, and with
/// all of them.
fn before_others(compare: &mut Compare, combo: Combo) {
    for case in each_call(compare, combo) {
        let faults = case.call.faults();
        let later: Vec<_> = faults
            .iter()
            .copied()
            .filter(|fault| !matches!(fault, Fault::VaultSize | Fault::Threshold))
            .collect();
        for threshold in others() {
            let mut cases = vec![case.clone()];
            for &fault in &later {
                let mut spoiled = case.clone();
                spoil(&mut spoiled, fault, &mut compare.random);
                cases.push(spoiled);
            }
            let mut worst = case.clone();
            worst.inputs[0][COMBO_PLACE] = 0;
            worst.inputs[1] = vec![0xff; 37];
            worst.inputs[2].clear();
            worst.buffers.iter_mut().for_each(Vec::clear);
            cases.push(worst);
            for mut case in cases {
                case.inputs[0] = make::with_threshold(&case.inputs[0], threshold);
                assert_eq!(compare.row(&case), 18, "{:?}", case.call);
            }
        }
    }
}

/// A vault of another size has no threshold.
fn behind_size(compare: &mut Compare, combo: Combo) {
    for case in each_call(compare, combo) {
        for byte in [0, 1, 35, 36, 220, 221, 255] {
            for len in [0, 1, 64, 65, 67, 68, 132, 256 + 66] {
                let mut sized = case.clone();
                sized.inputs[0] = vec![byte; len];
                assert_eq!(compare.row(&sized), 1, "{:?}", case.call);
            }
        }
    }
}

/// The calls on paths, contents and lengths end alike with every byte.
fn not_looked_at(compare: &mut Compare, combo: Combo) {
    let all = Call::ALL.into_iter();
    for call in all.filter(|call| call.takes_vault() && !call.is_by_threshold()) {
        let mut case = make::case(call, &mut compare.random, combo);
        while case.inputs.iter().any(|input| input.len() > 2000) {
            case = make::case(call, &mut compare.random, combo);
        }
        let right = compare.end(&case);
        assert_eq!(right.row, 0);
        for threshold in 0..=255 {
            case.inputs[0] = make::with_threshold(&case.inputs[0], threshold);
            assert!(compare.end(&case) == right, "{call:?}");
        }
        for combo in [0, 3, 255] {
            case.inputs[0][COMBO_PLACE] = combo;
            assert_eq!(compare.row(&case), 17, "{call:?}");
        }
    }
}

/// What a label says makes the vault, whose names go by it.
fn from_label(compare: &mut Compare) {
    for i in 0..400 {
        let random = &mut compare.random;
        let label = make::open_label(random, Combo::ALL[i % 2]);
        let opened = compare.end(&label);
        assert_eq!(opened.row, 0);
        let (enc, mac) = label.inputs[0].split_at(32);
        let made = compare.end(&Case {
            call: Call::MakeVault,
            inputs: vec![enc.to_vec(), mac.to_vec()],
            numbers: vec![opened.length, opened.other],
            buffers: vec![vec![0xa5; 66]],
        });
        assert_eq!(made.row, 0);
        let threshold = opened.other as u8;
        let plain = longest_plain(threshold);
        for (len, other) in [(plain, 0), (plain + 1, full_len(plain + 1))] {
            let combo = Combo::ALL[i % 2];
            let random = &mut compare.random;
            let mut write = make::write_name_at(random, combo, threshold, len);
            write.inputs[0] = made.buffers[0].clone();
            let end = compare.end(&write);
            assert_eq!((end.row, end.other), (0, other as u64));
        }
    }
}
