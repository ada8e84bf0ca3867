//! Keeps a log of three chunks open, in a vault of each combo, and pages through
//! it for handsets, 200 bytes a page: the header is opened once, and not for
//! each page. Then it has reads past the end refused, and a file with a damaged
//! header.

use skrapnefja::{Combo, Label, Reader, Refusal, Vault, CHUNK_LEN, KEY_LEN};

/// The master keys, which a program gets as `unlock.rs` does.
const ENC: [u8; KEY_LEN] = [1; KEY_LEN];
const MAC: [u8; KEY_LEN] = [2; KEY_LEN];

/// For show only: a program draws one for each file from a random generator.
const CONTENT_KEY: [u8; KEY_LEN] = [3; KEY_LEN];

/// The log has one line for each minute, and fills two chunks and a part of a
/// third.
const LINES: usize = 1_877;
const LINE_LEN: usize = 40;
const LOG_LEN: usize = LINES * LINE_LEN;

/// A page has five lines. One stands across the border of the first two chunks,
/// and the last has two lines only.
const PAGE_LEN: usize = 5 * LINE_LEN;
const BORDER_PAGE: usize = CHUNK_LEN / PAGE_LEN;
const LAST_PAGE: usize = LOG_LEN / PAGE_LEN;

fn main() -> Result<(), Refusal> {
    for combo in [Combo::SivGcm, Combo::SivCtrmac] {
        let threshold = 220;
        let vault = Vault::new(&ENC, &MAC, Label { combo, threshold })?;
        let file = written(&vault)?;
        let (length, reader) = vault.open_reader(&file);
        assert_eq!(length, Ok(LOG_LEN));
        show_page(&reader, BORDER_PAGE)?;
        show_page(&reader, LAST_PAGE)?;
        page_through(&reader)?;
        past_the_end(&reader);
        damaged_header(&vault, file);
    }
    Ok(())
}

fn log() -> Vec<u8> {
    (0..LINES).map(line).collect::<String>().into_bytes()
}

fn line(number: usize) -> String {
    let (day, hour, minute) = (number / 1_440 + 1, number / 60 % 24, number % 60);
    let (train, halt, next) = (number % 7 + 1, number % 4 + 1, (number + 1) % 4 + 1);
    format!("day {day} {hour:02}:{minute:02} train {train} leaves halt {halt} for {next}\n")
}

/// The file of the log. Its nonces are for show only, as the content key is.
fn written(vault: &Vault) -> Result<Vec<u8>, Refusal> {
    let (log, nonce_len) = (log(), vault.combo().nonce_len());
    let nonces: Vec<_> = (4..8).flat_map(|i| vec![i; nonce_len]).collect();
    let (header_nonce, chunk_nonces) = nonces.split_at(nonce_len);
    let mut file = vec![0; vault.file_length(log.len() as u64)?];
    vault.write_file(header_nonce, &CONTENT_KEY, chunk_nonces, &log, &mut file)?;
    let combo = vault.combo();
    println!(
        "{combo:?}: {} bytes are stored in {}",
        log.len(),
        file.len()
    );
    Ok(file)
}

/// The page with this number. All pages but the last are whole.
fn page(reader: &Reader, number: usize) -> Result<Vec<u8>, Refusal> {
    let from = number * PAGE_LEN;
    let mut page = vec![0; PAGE_LEN.min(LOG_LEN - from)];
    reader.read(from as u64, page.len() as u64, &mut page)?;
    Ok(page)
}

fn show_page(reader: &Reader, number: usize) -> Result<(), Refusal> {
    let page = page(reader, number)?;
    println!("page {number}, {} bytes:", page.len());
    print!("{}", String::from_utf8_lossy(&page));
    Ok(())
}

/// One handset pages forwards, another backwards, through the same reader.
fn page_through(reader: &Reader) -> Result<(), Refusal> {
    let log = log();
    let expected: Vec<_> = log.chunks(PAGE_LEN).collect();
    assert_eq!(expected.len(), LAST_PAGE + 1);
    for number in 0..=LAST_PAGE {
        for number in [number, LAST_PAGE - number] {
            assert_eq!(page(reader, number)?, expected[number]);
        }
    }
    println!("{} pages, forwards and backwards", expected.len());
    Ok(())
}

/// Makes a read that is refused, and leaves the buffer as it was.
fn refused(reader: &Reader, from: u64, count: u64) -> Refusal {
    let mut page = [0xa5; PAGE_LEN];
    let read = reader.read(from, count, &mut page);
    assert_eq!(page, [0xa5; PAGE_LEN]);
    read.expect_err("should be refused")
}

/// By far, where start and count add up to more than 64 bits hold, and by the
/// bytes that the last page lacks.
fn past_the_end(reader: &Reader) {
    let from = (LAST_PAGE * PAGE_LEN) as u64;
    assert_eq!(refused(reader, from, PAGE_LEN as u64), Refusal::Range);
    let refusal = refused(reader, u64::MAX - 100, PAGE_LEN as u64);
    assert_eq!(refusal, Refusal::Range);
    println!("past the end: row 6, {refusal}");
}

/// Beside the refusal is a reader of no bytes, through which nothing is read.
fn damaged_header(vault: &Vault, mut file: Vec<u8>) {
    file[0] ^= 1;
    let (length, reader) = vault.open_reader(&file);
    let refusal = length.expect_err("should be refused");
    assert_eq!(refusal, Refusal::Header);
    println!("with a damaged header: row 9, {refusal}");

    for (from, count) in [(0, 0), (0, 200), (u64::MAX, 200)] {
        assert_eq!(refused(&reader, from, count), Refusal::Length);
    }
    println!("a page of that: row 4, {}", Refusal::Length);
}
