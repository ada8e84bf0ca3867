//! Each function once with success, and once with each of its rows, in both
//! combos.

use skrapnefja::*;

const COMBOS: [Combo; 2] = [Combo::SivGcm, Combo::SivCtrmac];
const ENC: [u8; 32] = [1; 32];
const MAC: [u8; 32] = [2; 32];
const CONTENT_KEY: [u8; 32] = [3; 32];
const ID: &[u8] = b"e9250eb8-078d-4fc0-8835-be92a313360c";

/// The bytes of a buffer before a call.
const OLD: u8 = 0xa5;

/// Makes a call that is refused, on a buffer of this length.
fn refused<T: std::fmt::Debug>(
    len: usize,
    call: impl FnOnce(&mut [u8]) -> Result<T, Refusal>,
) -> Refusal {
    let mut out = vec![OLD; len];
    let refusal = call(&mut out).expect_err("should be refused");
    assert_eq!(out, vec![OLD; len], "a refusal changes nothing");
    refusal
}

/// Makes a call that succeeds, on a buffer that is 3 bytes longer than this.
fn done(len: usize, call: impl FnOnce(&mut [u8]) -> Result<usize, Refusal>) -> Vec<u8> {
    let mut out = vec![OLD; len + 3];
    assert_eq!(call(&mut out), Ok(len));
    assert_eq!(out.split_off(len), [OLD; 3], "the rest stays");
    out
}

/// The vault with the greatest threshold, 220.
fn vault(combo: Combo) -> Vault {
    with_threshold(combo, MAX_THRESHOLD)
}

fn with_threshold(combo: Combo, threshold: u32) -> Vault {
    Vault::new(&ENC, &MAC, Label { combo, threshold }).expect("two keys, and a threshold")
}

fn nonce(vault: &Vault) -> Vec<u8> {
    vec![4; vault.combo().nonce_len()]
}

/// Chunk nonces, each of one of these bytes all over.
fn nonces(vault: &Vault, bytes: &[u8]) -> Vec<u8> {
    let nonces = bytes.iter().map(|&i| vec![i; vault.combo().nonce_len()]);
    nonces.collect::<Vec<_>>().concat()
}

/// A file of up to 256 chunks, with the nonces 0, 1, ..
fn file(vault: &Vault, cleartext: &[u8]) -> Vec<u8> {
    let chunks = 0..cleartext.len().div_ceil(CHUNK_LEN);
    let bytes: Vec<_> = chunks.map(|i| i as u8).collect();
    file_with(vault, &bytes, cleartext)
}

fn file_with(vault: &Vault, bytes: &[u8], cleartext: &[u8]) -> Vec<u8> {
    let nonces = nonces(vault, bytes);
    let length = vault.file_length(cleartext.len() as u64);
    done(length.expect("within the limit"), |out| {
        vault.write_file(&nonce(vault), &CONTENT_KEY, &nonces, cleartext, out)
    })
}

/// A cleartext of two chunks, the second of 10 bytes.
fn two_chunks() -> Vec<u8> {
    (0..CHUNK_LEN + 10).map(|i| i as u8).collect()
}

/// The stored and the full name. For a plain name the latter is empty.
fn written(vault: &Vault, name: &[u8]) -> (Vec<u8>, Vec<u8>) {
    let (mut stored, mut full) = (vec![OLD; MAX_STORED_LEN], vec![OLD; MAX_FULL_LEN]);
    let written = vault.write_name(ID, name, &mut stored, &mut full);
    let (stored_len, full_len) = match written.expect("a name") {
        WrittenName::Plain(stored) => (stored, 0),
        WrittenName::Shortened { stored, full } => (stored, full),
    };
    for rest in [stored.split_off(stored_len), full.split_off(full_len)] {
        assert!(rest.iter().all(|&byte| byte == OLD), "the rest stays");
    }
    (stored, full)
}

fn flipped(bytes: &[u8], place: usize) -> Vec<u8> {
    let mut bytes = bytes.to_vec();
    bytes[place] ^= 1;
    bytes
}

#[test]
fn vaults() {
    for combo in COMBOS {
        let vault = vault(combo).clone();
        assert_eq!(vault.combo(), combo);
        assert_eq!(
            format!("{vault:?}"),
            format!("Vault {{ label: Label {{ combo: {combo:?}, threshold: 220 }}, .. }}")
        );

        let new = |enc: &[u8], mac: &[u8], threshold| {
            Vault::new(enc, mac, Label { combo, threshold }).expect_err("a size")
        };
        assert_eq!(new(&ENC[1..], &MAC, 220), Refusal::KeyOrNonceSize);
        assert_eq!(new(&ENC, &MAC[1..], 220), Refusal::KeyOrNonceSize);
        assert_eq!(new(&[1; 33], &[], 0), Refusal::KeyOrNonceSize);
        for threshold in [0, 35, 221, 256 + 220, u32::MAX] {
            assert_eq!(new(&ENC, &MAC, threshold), Refusal::Threshold);
        }
        for threshold in MIN_THRESHOLD..=MAX_THRESHOLD {
            let label = with_threshold(combo, threshold).label();
            assert_eq!(label, Label { combo, threshold });
        }
    }
}

#[test]
fn keys() {
    let (kek, key) = ([5; KEY_LEN], [6; KEY_LEN]);
    let wrapped = done(WRAPPED_KEY_LEN, |out| wrap_key(&kek, &key, out));
    assert_ne!(wrapped[8..], key);
    let unwrapped = done(KEY_LEN, |out| unwrap_key(&kek, &wrapped, out));
    assert_eq!(unwrapped, key);

    let wrap = |kek: &[u8], key: &[u8], len| refused(len, |out| wrap_key(kek, key, out));
    assert_eq!(wrap(&kek[1..], &key, 40), Refusal::KeyOrNonceSize);
    assert_eq!(wrap(&kek, &key[1..], 40), Refusal::KeyOrNonceSize);
    assert_eq!(wrap(&kek, &key, 39), Refusal::Room);

    let unwrap =
        |kek: &[u8], wrapped: &[u8], len| refused(len, |out| unwrap_key(kek, wrapped, out));
    assert_eq!(unwrap(&kek[1..], &wrapped, 32), Refusal::KeyOrNonceSize);
    assert_eq!(unwrap(&kek, &wrapped[1..], 32), Refusal::Length);
    assert_eq!(unwrap(&kek, &wrapped, 31), Refusal::Room);
    assert_eq!(unwrap(&kek, &flipped(&wrapped, 7), 32), Refusal::CheckValue);
    assert_eq!(unwrap(&key, &wrapped, 32), Refusal::CheckValue);
}

#[test]
fn headers() {
    for combo in COMBOS {
        let (vault, len) = (vault(combo), combo.header_len());
        let nonce = nonce(&vault);
        let header = done(len, |out| vault.write_header(&nonce, &CONTENT_KEY, out));
        assert!(header.starts_with(&nonce));
        let key = done(32, |out| {
            let opened = vault.open_header(&header, out)?;
            assert_eq!(opened.reserved, [0xff; 8]);
            Ok(opened.length)
        });
        assert_eq!(key, CONTENT_KEY);

        let write = |nonce: &[u8], key: &[u8], len| {
            refused(len, |out| vault.write_header(nonce, key, out)).row()
        };
        assert_eq!(write(&nonce[1..], &CONTENT_KEY, len), 1);
        assert_eq!(write(&nonce, &CONTENT_KEY[1..], len), 1);
        assert_eq!(write(&nonce, &CONTENT_KEY, len - 1), 7);

        let open = |header: &[u8], len| refused(len, |out| vault.open_header(header, out)).row();
        assert_eq!(open(&header[1..], 32), 4);
        assert_eq!(open(&header, 31), 7);
        assert_eq!(open(&flipped(&header, 20), 32), 9);
    }
}

/// Headers with reserved bytes that all differ, under keys 0, 1, .. and 32,
/// 33, ..
#[rustfmt::skip]
const RESERVED_GCM: [u8; Combo::SivGcm.header_len()] = [
    0xa0, 0xa1, 0xa2, 0xa3, 0xa4, 0xa5, 0xa6, 0xa7, 0xa8, 0xa9, 0xaa, 0xab,
    0x67, 0x9a, 0xff, 0xa9, 0xc0, 0x4d, 0x85, 0x37, 0x22, 0x24, 0xc5, 0x90,
    0x43, 0x3f, 0x86, 0x99, 0x38, 0xe5, 0x13, 0x5b, 0xde, 0xfa, 0x0c, 0x23,
    0xcc, 0x5f, 0x74, 0xd5, 0x2b, 0xfe, 0x23, 0x56, 0x8a, 0x2f, 0x1d, 0xa4,
    0xf3, 0x7f, 0x0d, 0x62, 0x6f, 0x1b, 0xad, 0x30, 0xe9, 0x4f, 0x48, 0x69,
    0x5a, 0xdd, 0x45, 0x79, 0x78, 0x99, 0x94, 0xd4,
];
#[rustfmt::skip]
const RESERVED_CTRMAC: [u8; Combo::SivCtrmac.header_len()] = [
    0xa0, 0xa1, 0xa2, 0xa3, 0xa4, 0xa5, 0xa6, 0xa7, 0xa8, 0xa9, 0xaa, 0xab,
    0xac, 0xad, 0xae, 0xaf, 0x5d, 0x1d, 0x82, 0x79, 0xf3, 0x3e, 0xfb, 0x85,
    0x4f, 0x0a, 0xaa, 0xc6, 0x4f, 0x4e, 0xaa, 0xa7, 0xa9, 0x98, 0xa1, 0x5a,
    0x30, 0x0c, 0xdb, 0x67, 0xbc, 0xdb, 0xaa, 0xd9, 0x33, 0x65, 0x85, 0xc8,
    0xc1, 0xb2, 0xbe, 0xf9, 0xb4, 0x3a, 0xc7, 0x55, 0xf0, 0xed, 0x11, 0x4a,
    0xa4, 0x80, 0xef, 0x8e, 0x30, 0xf6, 0xe1, 0x23, 0x5a, 0x86, 0x33, 0xea,
    0x94, 0xe0, 0xa7, 0xc0, 0xab, 0xc2, 0xa7, 0x32, 0xe9, 0x67, 0x55, 0xd5,
    0x7e, 0x2d, 0x18, 0xf7,
];

#[test]
fn reserved_bytes() {
    let (enc, mac): (Vec<_>, Vec<_>) = ((0..32).collect(), (32..64).collect());
    for (combo, header) in COMBOS
        .into_iter()
        .zip([&RESERVED_GCM[..], &RESERVED_CTRMAC])
    {
        let threshold = MAX_THRESHOLD;
        let vault = Vault::new(&enc, &mac, Label { combo, threshold }).expect("two keys");
        let mut key = [OLD; 32];
        let opened = vault.open_header(header, &mut key).expect("a right tag");
        assert_eq!(opened.length, 32);
        assert_eq!(
            opened.reserved,
            [0x81, 0x82, 0x83, 0x84, 0x85, 0x86, 0x87, 0x88]
        );
        assert!(key.into_iter().eq(0x40..0x60));
    }
}

#[test]
fn chunks() {
    for combo in COMBOS {
        let (vault, len) = (vault(combo), 5 + combo.chunk_overhead());
        let nonce = nonce(&vault);
        let chunk = done(len, |out| {
            vault.write_chunk(&CONTENT_KEY, &nonce, u64::MAX, &nonce, b"hello", out)
        });
        let cleartext = done(5, |out| {
            vault.open_chunk(&CONTENT_KEY, &nonce, u64::MAX, &chunk, out)
        });
        assert_eq!(cleartext, b"hello");

        let write = |own_nonce: &[u8], cleartext: &[u8], len| {
            refused(len, |out| {
                vault.write_chunk(&CONTENT_KEY, &nonce, 0, own_nonce, cleartext, out)
            })
            .row()
        };
        assert_eq!(write(&nonce[1..], b"hello", len), 1);
        assert_eq!(write(&nonce, b"", len), 4);
        assert_eq!(write(&nonce, b"hello", len - 1), 7);

        let open = |key: &[u8], nonce: &[u8], chunk: &[u8], len| {
            refused(len, |out| vault.open_chunk(key, nonce, 5, chunk, out))
        };
        assert_eq!(open(&[], &nonce, &chunk, 5), Refusal::KeyOrNonceSize);
        assert_eq!(open(&CONTENT_KEY, &[], &chunk, 5), Refusal::KeyOrNonceSize);
        assert_eq!(open(&CONTENT_KEY, &nonce, &chunk[5..], 5), Refusal::Length);
        assert_eq!(open(&CONTENT_KEY, &nonce, &chunk, 4), Refusal::Room);
        assert_eq!(open(&CONTENT_KEY, &nonce, &chunk, 5), Refusal::Chunk(5));
    }
}

#[test]
fn written_files() {
    let cleartext = two_chunks();
    let too_long = vec![0; MAX_CLEARTEXT_LEN + 1];
    for combo in COMBOS {
        let (vault, nonce_len) = (vault(combo), combo.nonce_len());
        let len = file(&vault, &cleartext).len();
        assert_eq!(vault.cleartext_length(len as u64), Ok(cleartext.len()));

        let write = |nonces: usize, cleartext: &[u8], len| {
            let nonces = vec![0; nonces];
            refused(len, |out| {
                vault.write_file(&nonce(&vault), &CONTENT_KEY, &nonces, cleartext, out)
            })
            .row()
        };
        assert_eq!(write(2 * nonce_len - 1, &cleartext, len), 1);
        assert_eq!(write(513 * nonce_len, &too_long, 0), 4);
        assert_eq!(write(2 * nonce_len, &cleartext, len - 1), 7);
        assert_eq!(write(2 * nonce_len, &cleartext, len), 8);
    }
}

#[test]
fn opened_files() {
    let cleartext = two_chunks();
    for combo in COMBOS {
        let (vault, header) = (vault(combo), combo.header_len());
        let (file, len) = (file(&vault, &cleartext), cleartext.len());
        let opened = done(len, |out| vault.open_file(&file, out));
        assert!(opened == cleartext);

        let open = |file: &[u8], len| refused(len, |out| vault.open_file(file, out));
        assert_eq!(open(&file[..header + 1], len), Refusal::Length);
        assert_eq!(open(&file, len - 1), Refusal::Room);
        assert_eq!(open(&flipped(&file, header - 1), len), Refusal::Header);
        assert_eq!(open(&flipped(&file, header), len), Refusal::Chunk(0));
        let last = file.len() - 1;
        assert_eq!(open(&flipped(&file, last), len), Refusal::Chunk(1));
    }
}

/// A file of one combo is none of the other: some lengths are no file's there,
/// and else the header is not genuine.
#[test]
fn the_other_combo() {
    let [gcm, ctrmac] = COMBOS.map(vault);
    let cleartext = two_chunks();
    for (own, other, len, refusal) in [
        (&gcm, &ctrmac, 0, Refusal::Length),
        (&gcm, &ctrmac, 40, Refusal::Length),
        (&gcm, &ctrmac, 41, Refusal::Header),
        (&ctrmac, &gcm, 0, Refusal::Length),
        (&ctrmac, &gcm, 1, Refusal::Header),
        (&ctrmac, &gcm, 32_728, Refusal::Header),
        (&ctrmac, &gcm, 32_729, Refusal::Length),
        (&ctrmac, &gcm, 32_756, Refusal::Length),
        (&ctrmac, &gcm, 32_757, Refusal::Header),
    ] {
        let file = file(own, &cleartext[..len]);
        let row = refused(len + 100, |out| other.open_file(&file, out));
        assert_eq!(row, refusal, "{own:?}, {len} bytes");
    }
}

#[test]
fn ranges() {
    let cleartext = two_chunks();
    let end = cleartext.len() as u64;
    for combo in COMBOS {
        let vault = vault(combo);
        let file = file(&vault, &cleartext);
        for (from, count) in [
            (0, 0),
            (end, 0),
            (0, end),
            (32_767, 2),
            (32_768, 10),
            (5, 7),
        ] {
            let part = done(count as usize, |out| {
                vault.read_range(&file, from, count, out)
            });
            assert!(part == cleartext[from as usize..][..count as usize]);
        }
        let damaged = flipped(&file, combo.header_len());
        let part = done(1, |out| vault.read_range(&damaged, 32_768, 1, out));
        assert_eq!(part, cleartext[32_768..32_769]);

        let read = |file: &[u8], from, count, len| {
            refused(len, |out| vault.read_range(file, from, count, out))
        };
        assert_eq!(read(&file[..67], 0, 9, 9), Refusal::Length);
        assert_eq!(read(&file, u64::MAX, 1, 9), Refusal::Range);
        assert_eq!(read(&file, 0, 9, 8), Refusal::Room);
        assert_eq!(read(&flipped(&file, 0), 0, 0, 9), Refusal::Header);
        assert_eq!(read(&damaged, 32_767, 2, 9), Refusal::Chunk(0));
    }
}

/// The file as a mend leaves it.
fn mended(
    vault: &Vault,
    file: &[u8],
    from: u64,
    new_bytes: &[u8],
    nonces: &[u8],
) -> Result<Vec<u8>, Refusal> {
    let mut mended = file.to_vec();
    match vault.mend(&mut mended, from, new_bytes, nonces) {
        Ok(count) => assert_eq!(count, new_bytes.len()),
        Err(refusal) => {
            assert!(mended == file, "a refusal changes nothing");
            return Err(refusal);
        }
    }
    Ok(mended)
}

/// A mended file is the one that is written with the new bytes and with the
/// lent nonces, 8 and 9.
#[test]
fn mends() {
    let old = two_chunks();
    for vault in COMBOS.map(vault) {
        let file = file(&vault, &old);
        for (from, count, bytes, lent) in [
            (32_767, 2, [8, 9], &[8, 9][..]),
            (0, 32_778, [8, 9], &[8, 9]),
            (5, 7, [8, 1], &[8]),
            (32_767, 1, [8, 1], &[8]),
            (32_768, 10, [0, 9], &[9]),
        ] {
            let mut cleartext = old.clone();
            let new_bytes = &mut cleartext[from..from + count];
            new_bytes.iter_mut().for_each(|byte| *byte = !*byte);
            let lent = nonces(&vault, lent);
            let mended = mended(&vault, &file, from as u64, new_bytes, &lent);
            assert!(mended.expect("a range inside") == file_with(&vault, &bytes, &cleartext));
        }
    }
}

#[test]
fn refused_mends() {
    let cleartext = two_chunks();
    let end = cleartext.len() as u64;
    for combo in COMBOS {
        let (vault, header) = (vault(combo), combo.header_len());
        let file = file(&vault, &cleartext);
        let mend = |file: &[u8], from, bytes: &[u8]| {
            let nonces = nonces(&vault, bytes);
            mended(&vault, file, from, b"ab", &nonces).expect_err("should be refused")
        };
        assert_eq!(mend(&file, 0, &[8, 9]), Refusal::KeyOrNonceSize);
        assert_eq!(mend(&file, u64::MAX, &[8]), Refusal::KeyOrNonceSize);
        let cut = &nonces(&vault, &[8, 9])[1..];
        let row = mended(&vault, &file, 32_767, b"ab", cut);
        assert_eq!(row, Err(Refusal::KeyOrNonceSize));
        assert_eq!(mend(&file[..67], 32_767, &[8, 9]), Refusal::Length);
        assert_eq!(mend(&file, end - 1, &[8]), Refusal::Range);
        assert_eq!(mend(&file, u64::MAX, &[8, 9]), Refusal::Range);
        for bytes in [[8, 8], [0, 8], [1, 8], [8, 0], [8, 1]] {
            assert_eq!(mend(&file, 32_767, &bytes), Refusal::RepeatedNonce);
        }
        assert_eq!(mend(&file, 32_768, &[0]), Refusal::RepeatedNonce);
        let damaged = flipped(&file, header - 1);
        assert_eq!(mend(&damaged, 32_767, &[8, 9]), Refusal::Header);
        let damaged = flipped(&file, header);
        assert_eq!(mend(&damaged, 32_767, &[8, 9]), Refusal::Chunk(0));
        let damaged = flipped(&file, file.len() - 1);
        assert_eq!(mend(&damaged, 32_767, &[8, 9]), Refusal::Chunk(1));

        // Each row with what is tried after it.
        let bad = flipped(&damaged, header - 1);
        assert_eq!(mend(&bad[..67], u64::MAX, &[1]), Refusal::KeyOrNonceSize);
        assert_eq!(mend(&bad[..67], u64::MAX, &[1, 1]), Refusal::Length);
        assert_eq!(mend(&bad, end - 1, &[1]), Refusal::Range);
        assert_eq!(mend(&bad, end - 2, &[1]), Refusal::RepeatedNonce);
        assert_eq!(mend(&bad, end - 2, &[8]), Refusal::Header);
    }
}

/// A bad chunk that is not covered stays as it is, and its nonce counts. That of
/// the header does not.
#[test]
fn mends_beside_a_bad_chunk() {
    let cleartext = two_chunks();
    for combo in COMBOS {
        let vault = vault(combo);
        let file = file(&vault, &cleartext);
        let damaged = flipped(&file, file.len() - 1);
        let mended = mended(&vault, &damaged, 0, b"ab", &nonce(&vault)).expect("a good chunk");
        let second = combo.header_len() + CHUNK_LEN + combo.chunk_overhead();
        assert_eq!(mended[second..], damaged[second..]);
        let read = done(3, |out| vault.read_range(&mended, 0, 3, out));
        assert_eq!(read, b"ab\x02");
        let refusal = refused(cleartext.len(), |out| vault.open_file(&mended, out));
        assert_eq!(refusal, Refusal::Chunk(1));

        let used = nonces(&vault, &[1]);
        let row = self::mended(&vault, &damaged, 0, b"ab", &used);
        assert_eq!(row, Err(Refusal::RepeatedNonce));
    }
}

/// Without new bytes there is no nonce, and the header alone is looked at.
#[test]
fn empty_mends() {
    let cleartext = two_chunks();
    let end = cleartext.len() as u64;
    for combo in COMBOS {
        let (vault, header) = (vault(combo), combo.header_len());
        let file = file(&vault, &cleartext);
        let damaged = flipped(&flipped(&file, header), file.len() - 1);
        let mend = |file: &[u8], from, nonces: &[u8]| mended(&vault, file, from, b"", nonces);
        for from in [0, 5, 32_768, end] {
            assert!(mend(&damaged, from, b"") == Ok(damaged.clone()));
        }
        let empty = file_with(&vault, &[], b"");
        assert_eq!(mend(&empty, 0, b""), Ok(empty.clone()));

        let one = nonce(&vault);
        assert_eq!(mend(&file, 0, &one), Err(Refusal::KeyOrNonceSize));
        assert_eq!(mend(&file[..67], 0, b""), Err(Refusal::Length));
        assert_eq!(mend(&file, end + 1, b""), Err(Refusal::Range));
        assert_eq!(mend(&file, u64::MAX, b""), Err(Refusal::Range));
        assert_eq!(mend(&flipped(&file, 0), 0, b""), Err(Refusal::Header));
    }
}

/// Row 1 counts as `covering_chunks` does, also where the range is not inside.
#[test]
fn covered_chunks() {
    for (from, count, chunks) in [
        (0, 0, 0),
        (u64::MAX, 0, 0),
        (0, 1, 1),
        (0, 32_768, 1),
        (0, 32_769, 2),
        (1, 32_768, 2),
        (32_767, 1, 1),
        (32_767, 2, 2),
        (32_768, 1, 1),
        (32_767, 32_770, 3),
        (u64::MAX - 32_767, 32_768, 1),
        (u64::MAX - 32_767, 32_769, 2),
        (u64::MAX, 1, 1),
        (u64::MAX, 2, 2),
        (u64::MAX, 32_770, 3),
    ] {
        assert_eq!(covering_chunks(from, count), chunks, "{from}, {count}");
        let new_bytes = vec![0; count as usize];
        for vault in COMBOS.map(vault) {
            let file = file(&vault, b"");
            for lent in 0..5 {
                let nonces = nonces(&vault, &vec![8; lent as usize]);
                let end = mended(&vault, &file, from, &new_bytes, &nonces);
                let row_1 = end == Err(Refusal::KeyOrNonceSize);
                assert_eq!(row_1, lent != chunks, "{from}, {count}, {lent}");
            }
        }
    }
    assert_eq!(covering_chunks(0, u64::MAX), 1 << 49);
    assert_eq!(covering_chunks(u64::MAX, u64::MAX), (1 << 49) + 1);
}

#[test]
fn plain_names() {
    for vault in COMBOS.map(vault) {
        let (stored, full) = written(&vault, b"log.txt");
        assert_eq!((stored.len(), full.len()), (36, 0));
        let name = done(7, |out| vault.open_name(ID, &stored, out));
        assert_eq!(name, b"log.txt");

        let write = |id: &[u8], name: &[u8], len| {
            refused(len, |out| vault.write_name(id, name, out, &mut [])).row()
        };
        assert_eq!(write(&[0x80], b"log.txt", 36), 2);
        assert_eq!(write(ID, b"", 36), 3);
        assert_eq!(write(ID, b"log.txt", 35), 7);

        let open = |id: &[u8], stored: &[u8], len| {
            refused(len, |out| vault.open_name(id, stored, out)).row()
        };
        assert_eq!(open(&[b' '; 37], &stored, 7), 2);
        assert_eq!(open(ID, &stored[1..], 7), 5);
        assert_eq!(open(ID, &stored, 6), 7);
        assert_eq!(open(b"", &stored, 7), 12);
    }
}

#[test]
fn shortened_names() {
    let name = [b'n'; 147];
    for vault in COMBOS.map(vault) {
        let (stored, full) = written(&vault, &name);
        assert_eq!((stored.len(), full.len()), (32, 224));
        let opened = done(147, |out| vault.open_long_name(ID, &stored, &full, out));
        assert_eq!(opened, name);

        let row = refused(32, |out| vault.write_name(ID, &name, out, &mut [0; 223])).row();
        assert_eq!(row, 7);

        let open = |id: &[u8], stored: &[u8], full: &[u8], len| {
            refused(len, |out| vault.open_long_name(id, stored, full, out)).row()
        };
        assert_eq!(open(&[0xff], &stored, &full, 147), 2);
        assert_eq!(open(ID, &stored, &full[..220], 147), 5);
        assert_eq!(open(ID, &stored, &full, 146), 7);
        assert_eq!(open(ID, &stored[1..], &full, 147), 11);
        assert_eq!(open(b"", &stored, &full, 147), 12);
    }
}

/// The full name of 9 bytes has 40 characters: it is stored as it is from the
/// threshold 40 on, and below that it is shortened.
#[test]
fn thresholds() {
    let name = b"train.log";
    for combo in COMBOS {
        let (full, none) = written(&vault(combo), name);
        assert_eq!((full.len(), none.len()), (40, 0));
        let (hash, same) = written(&with_threshold(combo, MIN_THRESHOLD), name);
        assert_eq!((hash.len(), &same), (32, &full));

        for threshold in MIN_THRESHOLD..=MAX_THRESHOLD {
            let vault = with_threshold(combo, threshold);
            let open = |out: &mut [u8]| vault.open_name(ID, &full, out);
            let open_long = |out: &mut [u8]| vault.open_long_name(ID, &hash, &full, out);
            if threshold < 40 {
                assert_eq!(written(&vault, name), (hash.clone(), full.clone()));
                assert_eq!(refused(9, open), Refusal::Text(32));
                assert_eq!(done(9, open_long), name);
            } else {
                assert_eq!(written(&vault, name), (full.clone(), vec![]));
                assert_eq!(done(9, open), name);
                assert_eq!(refused(9, open_long), Refusal::HashName);
            }
        }
    }
}

/// The full names of the bytes `log\xff` and of 147 bytes FF, and the hash name
/// of the second, as another program could store them.
const STRAY: &[u8] = b"l9FzfPEc4alEQu_U5mc5EH00yhk=.c9r";
const LONG_STRAY: &[u8] = b"YNjoOurUMEtrTWVLOX0lgnY66EV4LIIZZ7BoTF8CVcvfDWFCL8h3ziGUT5UxdpA5\
    IrieSGbs9s1vdd1LwciyJMZMNcAZpE0eC-krobjJArqlO_TlOT528MTEyoA4eD3zK_bx5vFP6kZa-VB_nw5av2qt3x9I\
    iZh6vtqJuDl9ztuzhV5YIJ4kHYEnzI9hM0fmm4v3mHRkHCNeITbxvgpNGdDZiw==.c9r";
const LONG_STRAY_HASH: &[u8] = b"hFFL1ne717ByBqnDt0gV7H89rIU=.c9s";

/// Row 3, but that row 12 comes first where a name is opened.
#[test]
fn not_text() {
    for vault in COMBOS.map(vault) {
        for name in [
            &b"log\xff"[..],
            b"a/b",
            b"a\0",
            b"\xc0\xaf",
            b"\xed\xa0\x80",
        ] {
            let refusal = refused(220, |out| vault.write_name(ID, name, out, &mut []));
            assert_eq!(refusal, Refusal::Name);
        }
        let open = |id: &[u8]| refused(4, |out| vault.open_name(id, STRAY, out));
        assert_eq!(open(ID), Refusal::Name);
        assert_eq!(open(b""), Refusal::SyntheticIv);
        let open = |id: &[u8]| {
            refused(147, |out| {
                vault.open_long_name(id, LONG_STRAY_HASH, LONG_STRAY, out)
            })
        };
        assert_eq!(open(ID), Refusal::Name);
        assert_eq!(open(b""), Refusal::SyntheticIv);
    }
}

/// The sizes that are named are those of the longest names, plain and
/// shortened.
#[test]
fn longest_names() {
    let name: Vec<_> = (0..=MAX_NAME_LEN).map(|i| b'a' + (i % 26) as u8).collect();
    let (longest, rest) = name.split_at(1020);
    assert_eq!(rest.len(), 1);
    for vault in COMBOS.map(vault) {
        let (plain, none) = written(&vault, &longest[..146]);
        assert_eq!((plain.len(), none.len()), (MAX_STORED_LEN, 0));
        let (stored, full) = written(&vault, longest);
        assert_eq!((stored.len(), full.len()), (32, MAX_FULL_LEN));
        let opened = done(MAX_NAME_LEN, |out| {
            vault.open_long_name(ID, &stored, &full, out)
        });
        assert_eq!(opened, longest);

        let row = refused(MAX_STORED_LEN, |out| {
            vault.write_name(ID, &name, out, &mut [0; MAX_FULL_LEN])
        })
        .row();
        assert_eq!(row, 3);
    }
}

#[test]
fn paths() {
    for combo in COMBOS {
        let threshold = MIN_THRESHOLD;
        let vault = Vault::new(&[0x55; 32], &[0x77; 32], Label { combo, threshold });
        let vault = vault.expect("two keys");
        let path = done(36, |out| vault.dir_path(b"", out));
        assert_eq!(path, b"/d/VL/WEHT553J5DR7OZLRJAYDIWFCXZABOD");

        let path = |id: &[u8], len| refused(len, |out| vault.dir_path(id, out)).row();
        assert_eq!(path(&[0x80], 36), 2);
        assert_eq!(path(ID, 35), 7);
    }
}

#[test]
fn lengths() {
    for (combo, longest) in COMBOS.into_iter().zip([16_791_620, 16_801_880]) {
        let (vault, header) = (vault(combo), combo.header_len());
        assert_eq!(vault.file_length(0), Ok(header));
        assert_eq!(
            vault.file_length(1),
            Ok(header + 1 + combo.chunk_overhead())
        );
        assert_eq!(vault.file_length(MAX_CLEARTEXT_LEN as u64), Ok(longest));
        assert_eq!(vault.file_length(u64::MAX), Err(Refusal::Length));
        let longest = vault.cleartext_length(longest as u64);
        assert_eq!(longest, Ok(MAX_CLEARTEXT_LEN));
        let none = vault.cleartext_length(header as u64 + 1);
        assert_eq!(none, Err(Refusal::Length));
    }
}
