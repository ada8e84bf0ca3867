//! Files that are kept open, in both combos: reads through a reader beside
//! ranges of the same file, and readers as C callers keep them.

use skrapnefja::*;

const COMBOS: [Combo; 2] = [Combo::SivGcm, Combo::SivCtrmac];
const ENC: [u8; 32] = [1; 32];
const MAC: [u8; 32] = [2; 32];
const CONTENT_KEY: [u8; 32] = [3; 32];

/// The bytes of a buffer before a call, and what a number is then.
const OLD: u8 = 0xa5;
const OLD_NUMBER: u64 = 72;

/// Two whole chunks, and a third of 10 bytes.
const LEN: u64 = 2 * 32_768 + 10;

/// A read: start, count, and room.
type Read = (u64, u64, usize);

/// Reads of a file of that length. Some are refused with row 6 or 7.
const READS: [Read; 22] = [
    (0, 0, 0),
    (0, 1, 1),
    (5, 200, 203),
    (32_700, 200, 200),
    (32_767, 2, 2),
    (32_768, 10, 12),
    (32_767, 32_770, 32_770),
    (65_535, 11, 11),
    (65_536, 10, 10),
    (LEN, 0, 3),
    (0, LEN, LEN as usize),
    (LEN, 1, 9),
    (LEN + 1, 0, 9),
    (0, LEN + 1, 70_000),
    (u64::MAX, 0, 9),
    (u64::MAX, 1, 0),
    (u64::MAX - 99, 200, 200),
    (200, u64::MAX, 200),
    (u64::MAX, u64::MAX, 9),
    (0, 1, 0),
    (32_767, 2, 1),
    (0, LEN, LEN as usize - 1),
];

/// An answer, and the buffer afterwards.
type End = (Result<usize, Refusal>, Vec<u8>);

fn end(len: usize, call: impl FnOnce(&mut [u8]) -> Result<usize, Refusal>) -> End {
    let mut out = vec![OLD; len];
    (call(&mut out), out)
}

fn range(vault: &Vault, file: &[u8], (from, count, len): Read) -> End {
    end(len, |out| vault.read_range(file, from, count, out))
}

fn read(reader: &Reader, (from, count, len): Read) -> End {
    end(len, |out| reader.read(from, count, out))
}

fn vault(combo: Combo) -> Vault {
    let threshold = MAX_THRESHOLD;
    Vault::new(&ENC, &MAC, Label { combo, threshold }).expect("two keys, and a threshold")
}

fn cleartext(len: u64) -> Vec<u8> {
    (0..len).map(|i| (i + i / 256) as u8).collect()
}

/// A file with this content key, and with the nonces 4 and, of chunks, 5, 6, ..
fn file_with(vault: &Vault, content_key: &[u8], cleartext: &[u8]) -> Vec<u8> {
    let nonce = |byte| vec![byte; vault.combo().nonce_len()];
    let chunks = 0..cleartext.len().div_ceil(CHUNK_LEN) as u8;
    let nonces = chunks.map(|i| nonce(5 + i)).collect::<Vec<_>>().concat();
    let length = vault.file_length(cleartext.len() as u64);
    let mut file = vec![OLD; length.expect("within the limit")];
    let written = vault.write_file(&nonce(4), content_key, &nonces, cleartext, &mut file);
    assert_eq!(written, length);
    file
}

fn file(vault: &Vault) -> Vec<u8> {
    file_with(vault, &CONTENT_KEY, &cleartext(LEN))
}

fn flipped(bytes: &[u8], place: usize) -> Vec<u8> {
    let mut bytes = bytes.to_vec();
    bytes[place] ^= 1;
    bytes
}

/// The file with these chunks damaged.
fn damaged(vault: &Vault, file: &[u8], chunks: &[usize]) -> Vec<u8> {
    let combo = vault.combo();
    let place = |i| combo.header_len() + (CHUNK_LEN + combo.chunk_overhead()) * i;
    let damage = |file: Vec<u8>, &i| flipped(&file, place(i));
    chunks.iter().fold(file.to_vec(), damage)
}

/// The reader of a file that is not refused.
fn reader<'a>(vault: &Vault, file: &'a [u8]) -> Reader<'a> {
    let (length, reader) = vault.open_reader(file);
    assert_eq!(length, vault.cleartext_length(file.len() as u64));
    assert!(length.is_ok());
    reader
}

/// No read changes what a later one gives: they are made in turn, and then
/// backwards, there also through a copy.
#[test]
fn as_ranges() {
    for vault in COMBOS.map(vault) {
        let file = file(&vault);
        for chunks in [&[][..], &[0], &[1], &[2], &[1, 2], &[0, 1, 2]] {
            let file = damaged(&vault, &file, chunks);
            let reader = reader(&vault, &file);
            let expected = READS.map(|read| range(&vault, &file, read));
            assert!(READS.map(|i| read(&reader, i)) == expected);
            for (i, end) in READS.into_iter().zip(&expected).rev() {
                assert!(read(&reader, i) == *end, "{i:?}, {chunks:?} damaged");
                assert!(read(&reader.clone(), i) == *end, "{i:?}, again");
            }
        }
    }
}

/// Files of other lengths: of no chunk, and with a last chunk that is short or
/// whole.
#[test]
fn other_lengths() {
    for vault in COMBOS.map(vault) {
        for len in [0, 1, 32_767, 32_768, 32_769, 65_536] {
            let file = file_with(&vault, &CONTENT_KEY, &cleartext(len));
            let reader = reader(&vault, &file);
            for from in [0, 1, len / 2, len, len + 1, u64::MAX] {
                for count in [0, 1, len, len.saturating_sub(from), u64::MAX] {
                    let i = (from, count, 40_000);
                    assert!(read(&reader, i) == range(&vault, &file, i), "{len}, {i:?}");
                }
            }
        }
    }
}

/// What is read is the cleartext, and each row is given with what is tried after
/// it.
#[test]
fn reads() {
    let cleartext = cleartext(LEN);
    for vault in COMBOS.map(vault) {
        let file = file(&vault);
        let good = reader(&vault, &file);
        let whole = read(&good, (0, LEN, cleartext.len()));
        assert!(whole == (Ok(cleartext.len()), cleartext.clone()));
        let (answer, page) = read(&good, (32_700, 200, 203));
        assert_eq!(answer, Ok(200));
        assert_eq!(page[..200], cleartext[32_700..32_900]);
        assert_eq!(page[200..], [OLD; 3], "the rest stays");

        let file = damaged(&vault, &file, &[1, 2]);
        let bad = reader(&vault, &file);
        for (i, refusal) in [
            ((u64::MAX - 99, 200, 199), Refusal::Range),
            ((LEN - 1, 2, 1), Refusal::Range),
            ((32_767, 2, 1), Refusal::Room),
            ((32_767, 2, 2), Refusal::Chunk(1)),
            ((65_535, 2, 2), Refusal::Chunk(1)),
            ((65_536, 1, 1), Refusal::Chunk(2)),
        ] {
            assert_eq!(read(&bad, i), (Err(refusal), vec![OLD; i.2]));
        }
        assert_eq!(read(&bad, (32_767, 1, 1)).0, Ok(1));
        assert_eq!(read(&bad, (65_536, 0, 0)).0, Ok(0));
    }
}

/// The file is refused with this, and every read through its reader with row 4.
fn refused(vault: &Vault, file: &[u8], refusal: Refusal) {
    let (answer, reader) = vault.open_reader(file);
    assert_eq!(answer, Err(refusal), "{} bytes", file.len());
    for i in READS {
        assert_eq!(read(&reader, i), (Err(Refusal::Length), vec![OLD; i.2]));
    }
}

#[test]
fn refused_files() {
    let [gcm, ctrmac] = COMBOS.map(vault);
    for (vault, other) in [(&gcm, &ctrmac), (&ctrmac, &gcm)] {
        let (file, header) = (file(vault), vault.combo().header_len());
        let chunk = CHUNK_LEN + vault.combo().chunk_overhead();
        for len in [0, 1, header - 1, header + 1, header + chunk + 1] {
            refused(vault, &file[..len], Refusal::Length);
        }
        for place in 0..header {
            refused(vault, &flipped(&file, place), Refusal::Header);
        }
        refused(other, &file, Refusal::Header);

        let (combo, threshold) = (vault.combo(), MAX_THRESHOLD);
        let stranger = Vault::new(&MAC, &ENC, Label { combo, threshold });
        refused(&stranger.expect("two keys"), &file, Refusal::Header);
    }
}

/// A reader does not borrow the vault, which is gone before the first read.
#[test]
fn without_the_vault() {
    for combo in COMBOS {
        let file = file(&vault(combo));
        let reader = reader(&vault(combo), &file);
        let (answer, part) = read(&reader, (32_700, 200, 200));
        assert_eq!(answer, Ok(200));
        assert_eq!(part, cleartext(LEN)[32_700..32_900]);
    }
}

#[test]
fn shown_without_keys() {
    for vault in COMBOS.map(vault) {
        let file = file(&vault);
        let shown = format!("{:?}", reader(&vault, &file));
        let expected = format!("Reader {{ file_len: {}, .. }}", file.len());
        assert_eq!(shown, expected);
    }
}

/// Makes a reader as in C: gives the row, the length, and the keys afterwards.
fn c_open(vault: &[u8], file: &[u8], keys_len: usize) -> (u32, u64, Vec<u8>) {
    let (mut keys, mut length) = (vec![OLD; keys_len], OLD_NUMBER);
    // SAFETY: slices and numbers, and none that is written overlaps another.
    let row = unsafe {
        call!(skrapnefja_open_reader:
            in vault, in file, out keys, set length,)
    };
    (row, length, keys)
}

/// Reads as in C: gives the row, the length, `at`, and the buffer afterwards.
fn c_read(file: &[u8], keys: &[u8], read: Read) -> (u32, u64, u64, Vec<u8>) {
    let (from, count, len) = read;
    let (mut out, mut length, mut at) = (vec![OLD; len], OLD_NUMBER, OLD_NUMBER);
    // SAFETY: likewise.
    let row = unsafe {
        call!(skrapnefja_reader_read:
            in file, in keys, val from, val count, out out, set length, set at,)
    };
    (row, length, at, out)
}

/// The vault as C callers lend it.
fn c_vault(combo: u8) -> Vec<u8> {
    [&ENC[..], &MAC, &[combo, 220]].concat()
}

/// The keys of the reader of [`file`].
fn c_keys(combo: Combo) -> Vec<u8> {
    let mac = match combo {
        Combo::SivGcm => [0; 32],
        Combo::SivCtrmac => MAC,
    };
    [&CONTENT_KEY[..], &mac, &[combo as u8]].concat()
}

/// Bytes past the keys stay. The threshold does not matter.
#[test]
fn keys() {
    for combo in COMBOS {
        let (file, keys) = (file(&vault(combo)), c_keys(combo));
        assert_eq!(keys.len(), READER_KEYS_LEN);
        let mut vault = c_vault(combo as u8);
        assert_eq!(c_open(&vault, &file, 65), (0, LEN, keys.clone()));
        vault[65] = 0;
        let longer = [&keys[..], &[OLD; 3]].concat();
        assert_eq!(c_open(&vault, &file, 68), (0, LEN, longer));
    }
}

/// Each row with what is tried after it. Where there is room, the keys of a
/// refused file are then those of the reader of no bytes; other rows leave them.
#[test]
fn keys_of_refused_files() {
    for combo in COMBOS {
        let (vault, unknown) = (c_vault(combo as u8), c_vault(3));
        let longer = [&unknown[..], &[220]].concat();
        let bad = flipped(&file(&self::vault(combo)), 0);
        for (vault, file, row, row_without_room) in [
            (&unknown[1..], &bad[..67], 1, 1),
            (&longer, &bad[..67], 1, 1),
            (&unknown, &bad[..67], 17, 17),
            (&c_vault(0), &bad[..67], 17, 17),
            (&vault, &bad[..67], 4, 4),
            (&vault, &bad, 9, 7),
        ] {
            for len in [0, 64] {
                let expected = (row_without_room, OLD_NUMBER, vec![OLD; len]);
                assert_eq!(c_open(vault, file, len), expected);
            }
            for rest in [0, 3] {
                let front = if [4, 9].contains(&row) { 0 } else { OLD };
                let keys = [vec![front; 65], vec![OLD; rest]].concat();
                let expected = (row, OLD_NUMBER, keys);
                assert_eq!(c_open(vault, file, 65 + rest), expected);
            }
        }
    }
}

/// A read in C that is refused: gives the row and `at`.
fn c_refused(file: &[u8], keys: &[u8], read: Read) -> (u32, u64) {
    let (row, length, at, out) = c_read(file, keys, read);
    assert_eq!(length, OLD_NUMBER);
    assert_eq!(out, vec![OLD; read.2], "a refusal changes nothing");
    (row, at)
}

/// The rows of a read in C, each with what is tried after it.
#[test]
fn rows_of_reads() {
    for combo in COMBOS {
        let (vault, keys) = (vault(combo), c_keys(combo));
        let file = file(&vault);
        let bad = damaged(&vault, &file, &[1, 2]);
        let last = |byte| [&keys[..64], &[byte]].concat();
        let longer = [&keys[..], &[1]].concat();
        for (file, keys, read, row, at) in [
            (&bad[..67], &[][..], (LEN, 9, 8), 1, OLD_NUMBER),
            (&bad[..67], &last(3)[1..], (LEN, 9, 8), 1, OLD_NUMBER),
            (&bad[..67], &longer, (LEN, 9, 8), 1, OLD_NUMBER),
            (&bad[..67], &keys, (LEN, 9, 8), 4, OLD_NUMBER),
            (&bad, &last(0), (LEN, 9, 8), 4, OLD_NUMBER),
            (&file, &[0; 65], (0, 0, 0), 4, OLD_NUMBER),
            (&bad, &keys, (LEN, 9, 8), 6, OLD_NUMBER),
            (&bad, &keys, (65_530, 9, 8), 7, OLD_NUMBER),
            (&bad, &keys, (65_530, 9, 9), 10, 1),
        ] {
            assert_eq!(c_refused(file, keys, read), (row, at));
        }
        for byte in 3..=255 {
            let row = c_refused(&bad[..67], &last(byte), (LEN, 9, 8));
            assert_eq!(row, (17, OLD_NUMBER));
        }
        let done = c_read(&bad, &keys, PART);
        assert_eq!(done, (0, 9, OLD_NUMBER, part()));
    }
}

/// The last nine bytes of the first chunk.
const PART: Read = (32_759, 9, 9);

fn part() -> Vec<u8> {
    cleartext(LEN)[32_759..32_768].to_vec()
}

/// A mend leaves the header and the length, and the keys still fit.
#[test]
fn mended_files() {
    for combo in COMBOS {
        let (vault, nonce) = (vault(combo), vec![9; combo.nonce_len()]);
        let mut file = file(&vault);
        assert_eq!(vault.mend(&mut file, 32_759, b"at 18:12.", &nonce), Ok(9));
        let mended = b"at 18:12.".to_vec();
        assert_eq!(read(&reader(&vault, &file), PART), (Ok(9), mended.clone()));
        let done = c_read(&file, &c_keys(combo), PART);
        assert_eq!(done, (0, 9, OLD_NUMBER, mended));
    }
}

/// Of the header only the nonce is looked at.
#[test]
fn changed_headers() {
    for combo in COMBOS {
        let (file, keys) = (file(&vault(combo)), c_keys(combo));
        for place in 0..combo.header_len() {
            let expected = if place < combo.nonce_len() {
                (10, OLD_NUMBER, 0, vec![OLD; 9])
            } else {
                (0, 9, OLD_NUMBER, part())
            };
            assert_eq!(c_read(&flipped(&file, place), &keys, PART), expected);
        }
    }
}

/// Keys are taken as they are. In SIV_GCM the content key alone decides on row
/// 10. In SIV_CTRMAC the MAC master key does, and other bytes are read with
/// another content key, as with that of another file.
#[test]
fn other_keys() {
    let bad = (10, OLD_NUMBER, 0, vec![OLD; 9]);
    for combo in COMBOS {
        let (vault, keys) = (vault(combo), c_keys(combo));
        let (file, other) = (file(&vault), file_with(&vault, &[4; 32], &cleartext(LEN)));
        let (other_mac, other_key) = (flipped(&keys, 63), flipped(&keys, 0));
        let other_mac = c_read(&file, &other_mac, PART);
        let other_key = [c_read(&file, &other_key, PART), c_read(&other, &keys, PART)];
        match combo {
            Combo::SivGcm => {
                assert_eq!(other_mac, (0, 9, OLD_NUMBER, part()));
                assert_eq!(other_key, [bad.clone(), bad.clone()]);
            }
            Combo::SivCtrmac => {
                assert_eq!(other_mac, bad);
                for (row, length, at, out) in other_key {
                    assert_eq!((row, length, at), (0, 9, OLD_NUMBER));
                    assert_ne!(out, part());
                }
            }
        }
    }
}
