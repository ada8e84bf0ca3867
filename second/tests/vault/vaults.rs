//! Vaults: how they are made, and what is taken for one.

use crate::case::{Call, Case};
use crate::compare::Compare;
use crate::fault::resize;
use crate::format::{self, COMBO_PLACE, VAULT};
use crate::make;
use crate::part::Part;
use crate::part::Run::{Each, Once};
use second::vault::Combo;

pub const PARTS: &[Part] = &[
    ("vaults: made", Each(made)),
    ("vaults: every size of keys and buffer", Each(sizes)),
    ("vaults: numbers of combos", Once(numbers)),
    ("vaults: lent in every size", Each(lent_sizes)),
    ("vaults: lent with every combo's byte", Each(lent_combos)),
    ("vaults: every bit of the keys", Each(bits)),
];

/// The encryption key, the MAC key, the combo's number and the threshold.
fn made(compare: &mut Compare, combo: Combo) {
    for _ in 0..100 {
        let case = make::make_vault(&mut compare.random, combo);
        let end = compare.end(&case);
        assert_eq!((end.row, end.length), (0, 66));
        let vault = make::vault_of(&case.inputs[0], &case.inputs[1], combo);
        let vault = make::with_threshold(&vault, case.numbers[1] as u8);
        assert_eq!(end.buffers[0][..VAULT], vault);
        assert_eq!(end.buffers[0][VAULT..], case.buffers[0][VAULT..]);
    }
}

fn sizes(compare: &mut Compare, combo: Combo) {
    let case = make::make_vault(&mut compare.random, combo);
    for enc in 0..=70 {
        for mac in 0..=70 {
            let mut sized = case.clone();
            resize(&mut sized.inputs[0], enc, &mut compare.random);
            resize(&mut sized.inputs[1], mac, &mut compare.random);
            let right = (enc, mac) == (32, 32);
            assert_eq!(compare.row(&sized), if right { 0 } else { 1 });
        }
    }
    for room in 0..=140 {
        let mut sized = case.clone();
        resize(&mut sized.buffers[0], room, &mut compare.random);
        assert_eq!(compare.row(&sized), if room < VAULT { 7 } else { 0 });
    }
}

/// Small numbers, the largest, and those from each power of two on: one that is
/// 1 or 2 in its last byte or bytes is no combo's.
fn numbers(compare: &mut Compare) {
    let powers = (0..32).flat_map(|bit| (0..3).map(move |more| (1u32 << bit) + more));
    let largest = u32::MAX - 300..=u32::MAX;
    let case = make::make_vault(&mut compare.random, Combo::SivGcm);
    for number in (0..1000).chain(powers).chain(largest) {
        let mut case = case.clone();
        case.numbers[0] = u64::from(number);
        let row = if matches!(number, 1 | 2) { 0 } else { 17 };
        assert_eq!(compare.row(&case), row);
    }
}

/// One of each call that takes a vault. What is encrypted is so long that it is
/// not the same under another key.
fn each_call(compare: &mut Compare, combo: Combo) -> Vec<Case> {
    let random = &mut compare.random;
    let calls = Call::ALL.into_iter().filter(|call| call.takes_vault());
    calls
        .map(|call| match call {
            Call::WriteChunk => make::write_chunk(random, combo, 100),
            Call::OpenChunk => make::open_chunk(random, combo, 100),
            Call::WriteFile => make::write_file(random, combo, 100),
            Call::OpenFile => make::open_file(random, combo, 100),
            Call::ReadRange => make::read_range(random, combo, 100, 7, 80),
            Call::OpenReader => make::open_reader(random, combo, 100),
            Call::Mend => make::mend(random, combo, 100, 7, 80),
            Call::WriteName => make::write_name(random, combo, 100),
            Call::OpenName => make::open_name(random, combo, 100),
            Call::DirPath => {
                let mut case = make::dir_path(random, combo);
                case.inputs[1] = vec![b'd'; 36];
                case
            }
            _ => make::case(call, random, combo),
        })
        .collect()
}

fn lent_sizes(compare: &mut Compare, combo: Combo) {
    for case in each_call(compare, combo) {
        for len in (0..=200).chain([1000, 66 * 256, 65_536 + 66]) {
            let mut sized = case.clone();
            resize(&mut sized.inputs[0], len, &mut compare.random);
            let row = compare.row(&sized);
            assert_eq!(row, if len == VAULT { 0 } else { 1 }, "{:?}", case.call);
        }
    }
}

fn lent_combos(compare: &mut Compare, combo: Combo) {
    for case in each_call(compare, combo) {
        for byte in 0..=255 {
            let mut other = case.clone();
            other.inputs[0][COMBO_PLACE] = byte;
            let row = compare.row(&other);
            match format::combo_of(&other.inputs[0]) {
                None => assert_eq!(row, 17, "{:?}", case.call),
                Some(lent) if lent == combo => assert_eq!(row, 0, "{:?}", case.call),
                Some(_) => assert_ne!(row, 17, "{:?}", case.call),
            }
        }
    }
}

/// Whether a call with this combo goes by the encryption master key, and
/// whether by the MAC master key.
fn goes_by(call: Call, combo: Combo) -> [bool; 2] {
    let is_ctrmac = combo == Combo::SivCtrmac;
    match call {
        Call::FileLength | Call::CleartextLength => [false, false],
        Call::WriteChunk | Call::OpenChunk => [false, is_ctrmac],
        _ if call.is_on_names() => [true, true],
        _ => [true, is_ctrmac],
    }
}

/// Whether the call opens the header of a file.
fn opens_header(call: Call) -> bool {
    matches!(
        call,
        Call::OpenHeader | Call::OpenFile | Call::ReadRange | Call::OpenReader | Call::Mend
    )
}

/// A call that goes by a key writes or finds something else with another one.
/// Only the tags of SIV_CTRMAC do not go by the encryption master key.
fn bits(compare: &mut Compare, combo: Combo) {
    for case in each_call(compare, combo) {
        let right = compare.end(&case);
        assert_eq!(right.row, 0);
        for bit in 0..512 {
            let mut other = case.clone();
            other.inputs[0][bit / 8] ^= 1 << (bit % 8);
            let end = compare.end(&other);
            let goes_by_it = goes_by(case.call, combo)[bit / 256];
            assert_eq!(end != right, goes_by_it, "{:?}, bit {bit}", case.call);
            let row = match case.call {
                _ if !goes_by_it => 0,
                Call::OpenName | Call::OpenLongName => 12,
                Call::OpenChunk => 10,
                call if opens_header(call) && (bit >= 256 || combo == Combo::SivGcm) => 9,
                _ => 0,
            };
            assert_eq!(end.row, row, "{:?}, bit {bit}", case.call);
        }
    }
}
