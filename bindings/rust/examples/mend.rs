//! Corrects a time in a log in place, in a vault of each combo: of the three
//! chunks of the file only the two that have some of the time are sealed again.
//! Then it has mends refused, and mends beside a damaged chunk.

use skrapnefja::{covering_chunks, Combo, Label, Refusal, Vault, CHUNK_LEN, KEY_LEN};
use std::ops::Range;

/// The master keys, which a program gets as `unlock.rs` does.
const ENC: [u8; KEY_LEN] = [1; KEY_LEN];
const MAC: [u8; KEY_LEN] = [2; KEY_LEN];

/// For show only: a program draws one for each file from a random generator.
const CONTENT_KEY: [u8; KEY_LEN] = [3; KEY_LEN];

/// The log has one line for each minute, and fills two chunks and a part of a
/// third. In a line the time stands behind the day.
const LINES: usize = 2_500;
const LINE_LEN: usize = 30;
const TIME: usize = "day 1 ".len();

/// The line whose time stands across the border of the first two chunks, and
/// the place of that time. The halt's clock had stopped.
const LINE: usize = 1_092;
const PLACE: u64 = (LINE * LINE_LEN + TIME) as u64;
const WRONG: &[u8] = b"09:47";
const RIGHT: &[u8] = b"18:12";

fn main() -> Result<(), Refusal> {
    for combo in [Combo::SivGcm, Combo::SivCtrmac] {
        let threshold = 220;
        let vault = Vault::new(&ENC, &MAC, Label { combo, threshold })?;
        let mut file = written(&vault)?;
        correct(&vault, &mut file)?;
        used_nonce(&vault, &file);
        past_the_end(&vault, &file);
        damaged_chunk(&vault, file)?;
    }
    Ok(())
}

/// The log with this time in that line.
fn log(time: &[u8]) -> Vec<u8> {
    let mut log = (0..LINES).map(line).collect::<String>().into_bytes();
    log[PLACE as usize..][..time.len()].copy_from_slice(time);
    log
}

fn line(number: usize) -> String {
    let (day, hour, minute) = (number / 1_440 + 1, number / 60 % 24, number % 60);
    let (train, halt) = (number % 7 + 1, number % 4 + 1);
    format!("day {day} {hour:02}:{minute:02} train {train} at halt {halt}\n")
}

/// Nonces, each of one of these bytes all over. They are for show only, as the
/// content key is.
fn nonces(vault: &Vault, bytes: &[u8]) -> Vec<u8> {
    let nonces = bytes.iter().map(|&i| vec![i; vault.combo().nonce_len()]);
    nonces.collect::<Vec<_>>().concat()
}

/// The file of the log with the wrong time.
fn written(vault: &Vault) -> Result<Vec<u8>, Refusal> {
    let log = log(WRONG);
    let (header_nonce, chunk_nonces) = (nonces(vault, &[4]), nonces(vault, &[5, 6, 7]));
    let mut file = vec![0; vault.file_length(log.len() as u64)?];
    vault.write_file(&header_nonce, &CONTENT_KEY, &chunk_nonces, &log, &mut file)?;
    let combo = vault.combo();
    println!(
        "{combo:?}: {} bytes are stored in {}",
        log.len(),
        file.len()
    );
    show_line(vault, &file)?;
    Ok(file)
}

fn show_line(vault: &Vault, file: &[u8]) -> Result<(), Refusal> {
    let mut line = [0; LINE_LEN];
    let from = (LINE * LINE_LEN) as u64;
    vault.read_range(file, from, line.len() as u64, &mut line)?;
    print!("    {}", String::from_utf8_lossy(&line));
    Ok(())
}

/// The file then opens to the log with the right time, and only its first two
/// chunks differ from what they were: they are what is stored again.
fn correct(vault: &Vault, file: &mut [u8]) -> Result<(), Refusal> {
    let old = file.to_vec();
    assert_eq!(covering_chunks(PLACE, RIGHT.len() as u64), 2);
    let count = vault.mend(file, PLACE, RIGHT, &nonces(vault, &[8, 9]))?;
    assert_eq!(count, RIGHT.len());
    show_line(vault, file)?;
    assert!(opened(vault, file)? == log(RIGHT));

    let header = 0..vault.combo().header_len();
    assert_eq!(file[header.clone()], old[header]);
    for number in 0..3 {
        let chunk = places(vault, number..number + 1, file);
        assert_eq!(file[chunk.clone()] != old[chunk], number < 2);
    }
    let stored = places(vault, 0..2, file);
    println!(
        "bytes {} to {} of the file are stored again",
        stored.start,
        stored.end - 1
    );
    Ok(())
}

fn opened(vault: &Vault, file: &[u8]) -> Result<Vec<u8>, Refusal> {
    let mut log = vec![0; vault.cleartext_length(file.len() as u64)?];
    vault.open_file(file, &mut log)?;
    Ok(log)
}

/// Where these chunks are in the file.
fn places(vault: &Vault, chunks: Range<usize>, file: &[u8]) -> Range<usize> {
    let combo = vault.combo();
    let start = |i| combo.header_len() + (CHUNK_LEN + combo.chunk_overhead()) * i;
    start(chunks.start)..start(chunks.end).min(file.len())
}

/// Makes a mend that is refused, and leaves the file as it was.
fn refused(vault: &Vault, file: &[u8], from: u64, bytes: &[u8]) -> Refusal {
    let mut same = file.to_vec();
    let mend = vault.mend(&mut same, from, RIGHT, &nonces(vault, bytes));
    assert!(same == file);
    mend.expect_err("should be refused")
}

/// The third chunk has the nonce already, and the mend is one of the first.
fn used_nonce(vault: &Vault, file: &[u8]) {
    let refusal = refused(vault, file, 0, &[7]);
    assert_eq!(refusal, Refusal::RepeatedNonce);
    println!("with a used nonce: row 8, {refusal}");
}

/// By one byte, and by far. The nonces are counted by the range alone: that of
/// five bytes from the greatest number on covers two chunks.
fn past_the_end(vault: &Vault, file: &[u8]) {
    let from = (LINES * LINE_LEN - RIGHT.len() + 1) as u64;
    assert_eq!(refused(vault, file, from, &[10]), Refusal::Range);
    let refusal = refused(vault, file, u64::MAX, &[10, 11]);
    assert_eq!(refusal, Refusal::Range);
    println!("past the end: row 6, {refusal}");
}

/// With the third chunk damaged the first can be mended, and the third cannot.
fn damaged_chunk(vault: &Vault, mut file: Vec<u8>) -> Result<(), Refusal> {
    let third = places(vault, 2..3, &file);
    file[third.end - 1] ^= 1;
    vault.mend(&mut file, TIME as u64, b"00:01", &nonces(vault, &[10]))?;
    let mut start = [0; 11];
    vault.read_range(&file, 0, 11, &mut start)?;
    assert_eq!(&start, b"day 1 00:01");
    println!(
        "beside a damaged chunk: {}",
        String::from_utf8_lossy(&start)
    );

    let refusal = refused(vault, &file, (2 * CHUNK_LEN) as u64, &[11]);
    assert_eq!(refusal, Refusal::Chunk(2));
    println!("in the damaged chunk: row 10, {refusal}");
    Ok(())
}
