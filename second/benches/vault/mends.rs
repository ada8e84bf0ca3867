//! Mends of a file of 16 MiB, and what it takes to write it anew.

use crate::inputs::{places, Cleartext, Vaults, CONTENT_KEY};
use crate::random::Random;
use crate::time::{both, both_after};
use second::vault::{Combo, CHUNK_LEN};
use std::time::Duration;

const MENDS: usize = 1000;
const LEN: usize = 200;

/// The library's time and the second program's.
type Times = [Duration; 2];

/// What is lent for one mend.
struct Mend {
    from: u64,
    new: Vec<u8>,
    nonces: Vec<u8>,
}

pub fn run(combo: Combo, name: &str, vaults: &Vaults, cleartext: &Cleartext, file: &[u8]) {
    let mends = mends(combo);
    let title = format!("{name}: {MENDS} mends of {LEN} bytes of it");
    mend(&title, vaults, file, &mends);
    let title = format!("{name}: the first of these");
    let (one, mended) = mend(&title, vaults, file, &mends[..1]);
    let title = format!("{name}: opened, changed and written anew");
    let (all, changed) = rewrite(&title, vaults, cleartext, file, &mends[0]);

    let mut opened = vec![0; changed.len()];
    let length = vaults.second.open_file(&mended, &mut opened);
    assert_eq!(length, Ok(opened.len()));
    assert!(opened == changed, "{title}: another cleartext");
    let [library, second] = [0, 1].map(|i| one[i].as_secs_f64() / all[i].as_secs_f64());
    let title = format!("{name}: of this time one mend takes");
    println!("{title:44} {library:12.5} {second:12.5}");
}

/// Each at another place, with bytes and nonces of its own.
fn mends(combo: Combo) -> Vec<Mend> {
    let mut random = Random::new(6);
    let at = |from: u64| {
        let start = from as usize;
        let chunks = (start + LEN).div_ceil(CHUNK_LEN) - start / CHUNK_LEN;
        Mend {
            from,
            new: random.bytes(LEN),
            nonces: random.bytes(chunks * combo.nonce_len()),
        }
    };
    places(MENDS, LEN).into_iter().map(at).collect()
}

/// Makes the mends, one after the other. Gives the file as it is then.
fn mend(title: &str, vaults: &Vaults, file: &[u8], mends: &[Mend]) -> (Times, Vec<u8>) {
    let mut buffers = [file.to_vec()];
    let times = both_after(
        title,
        &mut buffers,
        |buffer| buffer.copy_from_slice(file),
        |out| {
            let (vault, mends) = (&vaults.library, mends.iter());
            mends
                .map(|mend| vault.mend(&mut out[0], mend.from, &mend.new, &mend.nonces))
                .sum()
        },
        |out| {
            let (vault, mends) = (&vaults.second, mends.iter());
            mends
                .map(|mend| vault.mend(&mut out[0], mend.from, &mend.new, &mend.nonces))
                .sum()
        },
    );
    let [mended] = buffers;
    (times, mended)
}

/// Opens the file, changes its cleartext as the mend would, and writes it. Gives
/// that cleartext.
fn rewrite(
    title: &str,
    vaults: &Vaults,
    cleartext: &Cleartext,
    file: &[u8],
    mend: &Mend,
) -> (Times, Vec<u8>) {
    let Cleartext {
        bytes,
        header_nonce,
        chunk_nonces,
    } = cleartext;
    let change = |text: &mut [u8]| text[mend.from as usize..][..LEN].copy_from_slice(&mend.new);
    let mut buffers = [vec![0; bytes.len()], vec![0; file.len()]];
    let times = both(
        title,
        &mut buffers,
        |out| {
            let ([text, out], vault) = (two(out), &vaults.library);
            vault.open_file(file, text)?;
            change(text);
            vault.write_file(header_nonce, &CONTENT_KEY, chunk_nonces, text, out)
        },
        |out| {
            let ([text, out], vault) = (two(out), &vaults.second);
            vault.open_file(file, text)?;
            change(text);
            vault.write_file(header_nonce, &CONTENT_KEY, chunk_nonces, text, out)
        },
    );
    let [text, _] = buffers;
    (times, text)
}

fn two(buffers: &mut [Vec<u8>]) -> &mut [Vec<u8>; 2] {
    buffers.try_into().expect("there are two")
}
