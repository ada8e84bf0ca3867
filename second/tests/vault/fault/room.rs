//! Buffers that are too short.

use crate::case::{Call, Case};
use crate::common::random::Random;
use crate::format::{full_len, sizes, READER_KEYS, VAULT, WRAPPED_KEY};
use crate::make;

/// Makes a buffer too short for what goes into it.
pub fn room(case: &mut Case, random: &mut Random) -> bool {
    let mut needs: Vec<_> = needs(case).into_iter().enumerate().collect();
    needs.retain(|&(_, need)| need > 0);
    if needs.is_empty() {
        return false;
    }
    let (buffer, need) = needs[random.below(needs.len())];
    let len = [need - 1, random.below(need)][random.below(2)];
    case.buffers[buffer].truncate(len);
    true
}

/// How long each part of the answer is.
fn needs(case: &Case) -> Vec<usize> {
    let input = |i: usize| case.inputs[i].len();
    let sizes = || sizes(case.combo().expect("a vault"));
    let name = |text: &[u8]| {
        let padding = text.iter().filter(|&&byte| byte == b'=').count();
        (text.len() - 4) / 4 * 3 - padding - 16
    };
    match case.call {
        Call::MakeVault => vec![VAULT],
        Call::WriteHeader => vec![sizes().header],
        Call::OpenHeader | Call::UnwrapKey => vec![32],
        Call::WriteChunk => vec![input(4) + sizes().overhead],
        Call::OpenChunk => vec![input(3) - sizes().overhead],
        Call::WriteFile => vec![sizes().file(input(4))],
        Call::OpenFile => vec![make::cleartext_len(case)],
        Call::ReadRange | Call::ReaderRead => vec![case.numbers[1] as usize],
        Call::OpenReader => vec![READER_KEYS],
        Call::WriteName => match full_len(input(2)) {
            full if full <= case.threshold().into() => vec![full, 0],
            full => vec![32, full],
        },
        Call::OpenName => vec![name(&case.inputs[2])],
        Call::OpenLongName => vec![name(&case.inputs[3])],
        Call::DirPath => vec![36],
        Call::Mend | Call::OpenLabel | Call::FileLength | Call::CleartextLength => vec![],
        Call::WrapKey => vec![WRAPPED_KEY],
    }
}
