//! Names and paths.

use crate::case::{Call, Case, End};
use crate::compare::Compare;
use crate::fault::{resize, spoil, Fault};
use crate::format::LONGEST_NAME;
use crate::make;
use crate::part::Part;
use crate::part::Run::{Each, Once};
use second::vault::Combo;

pub const PARTS: &[Part] = &[
    ("names: every length", Each(lengths)),
    (
        "names: every directory ID length and byte",
        Each(directory_ids),
    ),
    ("names: sizes of buffers", Each(buffers)),
    ("names: the same in either combo", Once(either_combo)),
    ("names: in another directory", Each(moved)),
    ("names: swapped keys", Each(swapped_keys)),
];

fn lengths(compare: &mut Compare, combo: Combo) {
    for len in 0..LONGEST_NAME + 100 {
        let mut write = make::write_name(&mut compare.random, combo, len);
        write.buffers = [230, 1600].map(|len| compare.random.bytes(len)).to_vec();
        let End {
            row, length, other, ..
        } = compare.end(&write);
        let full = ((16 + len).div_ceil(3) * 4 + 4) as u64;
        match len {
            1..=146 => assert_eq!((row, length, other), (0, full, 0)),
            147..=1020 => assert_eq!((row, length, other), (0, 32, full)),
            _ => assert_eq!(row, 3),
        }
        if (1..=1020).contains(&len) {
            let long = make::open_long_name(&mut compare.random, combo, len);
            assert_eq!(compare.row(&long), if len > 146 { 0 } else { 11 });
        }
        if (1..=146).contains(&len) {
            let open = make::open_name(&mut compare.random, combo, len);
            assert_eq!(compare.row(&open), 0);
        }
    }
}

/// One of each call that takes a directory ID.
fn each_call(compare: &mut Compare, combo: Combo) -> [Case; 4] {
    let random = &mut compare.random;
    [
        make::write_name(random, combo, 30),
        make::open_name(random, combo, 30),
        make::open_long_name(random, combo, 150),
        make::dir_path(random, combo),
    ]
}

fn directory_ids(compare: &mut Compare, combo: Combo) {
    for case in each_call(compare, combo) {
        assert_eq!(compare.row(&case), 0);
        for len in 0..60 {
            let mut other = case.clone();
            other.inputs[1] = vec![b'd'; len];
            let row = compare.row(&other);
            assert_eq!(row == 2, len > 36);
        }
        for byte in 0..=255 {
            for place in [0, 17, 35] {
                let mut other = case.clone();
                other.inputs[1] = vec![b'd'; 36];
                other.inputs[1][place] = byte;
                let row = compare.row(&other);
                assert_eq!(row == 2, byte >= 128);
            }
        }
    }
}

fn buffers(compare: &mut Compare, combo: Combo) {
    for name in [1, 50, 146, 147, 255, 256, 1019, 1020] {
        let write = make::write_name(&mut compare.random, combo, name);
        let full = (16 + name).div_ceil(3) * 4 + 4;
        for stored_len in (0..50).chain(full - 3..full + 3) {
            for full_len in [0, 1, full - 1, full, full + 1] {
                let mut sized = write.clone();
                let buffers = [stored_len, full_len].map(|len| compare.random.bytes(len));
                sized.buffers = buffers.to_vec();
                let fits = match full {
                    0..=220 => stored_len >= full,
                    _ => stored_len >= 32 && full_len >= full,
                };
                assert_eq!(compare.row(&sized), if fits { 0 } else { 7 });
            }
        }
    }
    let opens = [
        (make::open_name(&mut compare.random, combo, 40), 40),
        (make::open_long_name(&mut compare.random, combo, 200), 200),
        (make::open_long_name(&mut compare.random, combo, 1020), 1020),
        (make::dir_path(&mut compare.random, combo), 36),
    ];
    for (case, need) in opens {
        for len in (0..230).chain(1000..1040) {
            let mut sized = case.clone();
            resize(&mut sized.buffers[0], len, &mut compare.random);
            assert_eq!(compare.row(&sized), if len < need { 7 } else { 0 });
        }
    }
}

/// What is written, opened or refused does not go by the combo.
fn either_combo(compare: &mut Compare) {
    for call in Call::ALL.into_iter().filter(|call| call.is_on_names()) {
        let of_vault = [Fault::VaultSize, Fault::Combo];
        let faults = call.faults().iter();
        for &fault in faults.filter(|fault| !of_vault.contains(fault)) {
            for is_spoiled in [true, false].repeat(50) {
                let mut case = make::case(call, &mut compare.random, Combo::SivGcm);
                if is_spoiled {
                    spoil(&mut case, fault, &mut compare.random);
                }
                let end = compare.end(&case);
                case.inputs[0] = make::with_combo(&case.inputs[0], Combo::SivCtrmac);
                assert!(compare.end(&case) == end, "{call:?}");
            }
        }
    }
}

/// A name opens in its own directory only. The root's ID is empty, and its
/// names are not those of another.
fn moved(compare: &mut Compare, combo: Combo) {
    let ids: [&[u8]; 6] = [b"", b"\0", b"a", b"aa", &[b'a'; 35], &[b'a'; 36]];
    for name in [1, 15, 16, 17, 146, 147, 255, 256, 1019, 1020] {
        for here in ids {
            let mut write = make::write_name(&mut compare.random, combo, name);
            write.inputs[1] = here.to_vec();
            assert_eq!(compare.row(&write), 0);
            for there in ids {
                let mut open = make::open_written(&mut compare.random, &write);
                open.inputs[1] = there.to_vec();
                assert_eq!(compare.row(&open), if here == there { 0 } else { 12 });
            }
        }
    }
}

fn swapped_keys(compare: &mut Compare, combo: Combo) {
    for _ in 0..20 {
        for case in each_call(compare, combo) {
            let mut swapped = case.clone();
            swapped.inputs[0][..64].rotate_left(32);
            let (right, wrong) = (compare.end(&case), compare.end(&swapped));
            assert!(wrong.row == 12 || wrong.buffers != right.buffers);
        }
    }
}
