//! Each call of the library, in each combo, with an input that succeeds; names,
//! labels and readers also with some that are refused.

use super::measure::used;
use super::{labels, readers};
use skrapnefja::{
    unwrap_key, wrap_key, Combo, Label, Refusal, Vault, WrittenName, KEY_LEN, MAX_FULL_LEN,
    MAX_NAME_LEN, MAX_STORED_LEN, RAW_KEY_LEN, VAULT_LEN, WRAPPED_KEY_LEN,
};

pub const ENC: [u8; 32] = [1; 32];
pub const MAC: [u8; 32] = [2; 32];
pub const CONTENT_KEY: [u8; 32] = [3; 32];
pub const RAW_KEY: [u8; RAW_KEY_LEN] = [4; RAW_KEY_LEN];
const ID: &[u8] = b"e9250eb8-078d-4fc0-8835-be92a313360c";

/// What no call may exceed.
const MOST: usize = 8192;

/// A call by its name, with what it used when it was done.
pub type Depth = (&'static str, usize);

pub fn run() {
    println!(
        "Stack of each call of the library, by what it changed on a stack filled with one byte:"
    );
    let mut deepest = 0;
    let mut print = |combo: &str, (name, bytes): Depth| {
        println!("{:44} {bytes:9} bytes", format!("{combo}{name}"));
        deepest = deepest.max(bytes);
    };
    for (combo, name) in [
        (Combo::SivGcm, "SIV_GCM: "),
        (Combo::SivCtrmac, "SIV_CTRMAC: "),
    ] {
        for depth in depths(combo) {
            print(name, depth);
        }
    }
    for depth in labels::depths().into_iter().chain(key_depths()) {
        print("", depth);
    }
    println!(
        "{:44} {:9} bytes",
        "an empty call (within the others)",
        used(|| ())
    );
    println!("{:44} {deepest:9} bytes", "the deepest");
    assert!(deepest <= MOST, "more than {MOST} bytes of stack");
}

/// What a call used that must give this length.
fn done(length: usize, call: impl FnMut() -> Result<usize, Refusal>) -> usize {
    ends(Ok(length), call)
}

/// What a call used that must end in this.
pub fn ends(
    end: Result<usize, Refusal>,
    mut call: impl FnMut() -> Result<usize, Refusal>,
) -> usize {
    let mut result = Ok(0);
    let bytes = used(|| result = call());
    assert_eq!(result, end);
    bytes
}

fn depths(combo: Combo) -> Vec<Depth> {
    let label = Label {
        combo,
        threshold: 220,
    };
    let made = done(VAULT_LEN, || {
        Vault::new(&ENC, &MAC, label).map(|_| VAULT_LEN)
    });
    let vault = Vault::new(&ENC, &MAC, label).expect("two keys");
    [
        vec![("make_vault", made)],
        header_depths(&vault, combo),
        chunk_depths(&vault, combo),
        file_depths(&vault, combo),
        readers::depths(combo),
        name_depths(&vault),
        broken_name_depths(&vault),
        length_depths(&vault, combo),
    ]
    .concat()
}

fn header_depths(vault: &Vault, combo: Combo) -> Vec<Depth> {
    let nonce = vec![4; combo.nonce_len()];
    let (mut header, mut key) = (vec![0; combo.header_len()], [0; KEY_LEN]);
    let write = done(header.len(), || {
        vault.write_header(&nonce, &CONTENT_KEY, &mut header)
    });
    let open = done(KEY_LEN, || {
        let opened = vault.open_header(&header, &mut key)?;
        Ok(opened.length)
    });
    vec![("write_header", write), ("open_header", open)]
}

fn chunk_depths(vault: &Vault, combo: Combo) -> Vec<Depth> {
    let nonce = vec![4; combo.nonce_len()];
    let mut cleartext = vec![7; 32_768];
    let mut chunk = vec![0; cleartext.len() + combo.chunk_overhead()];
    let write = done(chunk.len(), || {
        vault.write_chunk(&CONTENT_KEY, &nonce, 7, &nonce, &cleartext, &mut chunk)
    });
    let open = done(cleartext.len(), || {
        vault.open_chunk(&CONTENT_KEY, &nonce, 7, &chunk, &mut cleartext)
    });
    vec![("write_chunk", write), ("open_chunk", open)]
}

/// Four chunks, the last of one byte.
fn file_depths(vault: &Vault, combo: Combo) -> Vec<Depth> {
    let nonce = vec![4; combo.nonce_len()];
    let nonces: Vec<_> = (0..4 * combo.nonce_len() as u8).collect();
    let mut cleartext = vec![7; 3 * 32_768 + 1];
    let length = combo.header_len() + cleartext.len() + 4 * combo.chunk_overhead();
    let mut file = vec![0; length];
    let write = done(length, || {
        vault.write_file(&nonce, &CONTENT_KEY, &nonces, &cleartext, &mut file)
    });
    let open = done(cleartext.len(), || vault.open_file(&file, &mut cleartext));
    let read = done(65_536, || {
        vault.read_range(&file, 17, 65_536, &mut cleartext)
    });
    vec![
        ("write_file", write),
        ("open_file", open),
        ("read_range", read),
        ("mend", mend_depth(vault, combo, &mut file)),
    ]
}

/// Of a range over two chunks.
fn mend_depth(vault: &Vault, combo: Combo, file: &mut [u8]) -> usize {
    let new = vec![8; 40_000];
    let mut nonces: Vec<_> = (0x80..).take(2 * combo.nonce_len()).collect();
    done(new.len(), || {
        // They are fresh each time.
        nonces.rotate_left(1);
        vault.mend(file, 17, &new, &nonces)
    })
}

fn name_depths(vault: &Vault) -> Vec<Depth> {
    let mut name = [b'n'; MAX_NAME_LEN];
    let (mut plain, mut stored, mut full) = ([0; MAX_STORED_LEN], [0; 32], [0; MAX_FULL_LEN]);
    let mut path = [0; 36];
    let write_plain = done(MAX_STORED_LEN, || {
        match vault.write_name(ID, &name[..146], &mut plain, &mut [])? {
            WrittenName::Plain(stored) => Ok(stored),
            WrittenName::Shortened { .. } => Ok(0),
        }
    });
    let write_shortened = done(MAX_FULL_LEN, || {
        match vault.write_name(ID, &name, &mut stored, &mut full)? {
            WrittenName::Plain(_) => Ok(0),
            WrittenName::Shortened { full, .. } => Ok(full),
        }
    });
    let open = done(146, || vault.open_name(ID, &plain, &mut name));
    let open_long = done(MAX_NAME_LEN, || {
        vault.open_long_name(ID, &stored, &full, &mut name)
    });
    let path = done(36, || vault.dir_path(ID, &mut path));
    vec![
        ("write_name, plain", write_plain),
        ("write_name, shortened", write_shortened),
        ("open_name", open),
        ("open_long_name", open_long),
        ("dir_path", path),
    ]
}

/// The longest texts, with another last character.
fn broken_name_depths(vault: &Vault) -> Vec<Depth> {
    let of = |digits: usize, pads: usize| "A".repeat(digits) + &"=".repeat(pads) + ".c9s";
    let (plain, full) = (of(MAX_STORED_LEN - 4, 0), of(MAX_FULL_LEN - 6, 2));
    let at = |text: &str| Err(Refusal::Text(text.len() as u64 - 1));
    let open = ends(at(&plain), || {
        vault.open_name(ID, plain.as_bytes(), &mut [])
    });
    let open_long = ends(at(&full), || {
        vault.open_long_name(ID, b"", full.as_bytes(), &mut [])
    });
    vec![
        ("open_name, broken", open),
        ("open_long_name, broken", open_long),
    ]
}

fn length_depths(vault: &Vault, combo: Combo) -> Vec<Depth> {
    let file = combo.header_len() + combo.chunk_overhead() + 1;
    let file_length = done(file, || vault.file_length(1));
    let cleartext_length = done(1, || vault.cleartext_length(file as u64));
    vec![
        ("file_length", file_length),
        ("cleartext_length", cleartext_length),
    ]
}

/// The calls that take no vault.
fn key_depths() -> [Depth; 2] {
    let (mut wrapped, mut key) = ([0; WRAPPED_KEY_LEN], [0; KEY_LEN]);
    let wrap = done(WRAPPED_KEY_LEN, || {
        wrap_key(&ENC, &CONTENT_KEY, &mut wrapped)
    });
    let unwrap = done(KEY_LEN, || unwrap_key(&ENC, &wrapped, &mut key));
    [("wrap_key", wrap), ("unwrap_key", unwrap)]
}
