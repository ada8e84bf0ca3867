//! Makes a vault of each combo, writes a file in both, and names as the vaults
//! store them, and reads them again.

use skrapnefja::{Combo, Label, Refusal, Vault, WrittenName, KEY_LEN};

/// The master keys, which a program gets as `unlock.rs` does.
const ENC: [u8; KEY_LEN] = [1; KEY_LEN];
const MAC: [u8; KEY_LEN] = [2; KEY_LEN];

/// A club has an older vault beside its own, and that one shortens names early.
/// Here both are under the same master keys.
const OWN: Label = Label {
    combo: Combo::SivGcm,
    threshold: 220,
};
const OLDER: Label = Label {
    combo: Combo::SivCtrmac,
    threshold: 36,
};

/// What the file holds.
const LOG: &[u8] = b"14:02 handset 7 takes train 12\n14:05 handset 7 stops train 12\n";

/// For show only: a program draws one for each file from a random generator.
const CONTENT_KEY: [u8; KEY_LEN] = [3; KEY_LEN];

fn main() -> Result<(), Refusal> {
    let vault = Vault::new(&ENC, &MAC, OWN)?;
    let older = Vault::new(&ENC, &MAC, OLDER)?;

    for (vault, other) in [(&vault, &older), (&older, &vault)] {
        let file = written(vault)?;
        read(vault, &file)?;
        the_other_combo(other, &file)?;
    }
    name(&vault)?;
    mangled_name(&vault);
    shortened_name(&older, &vault)?;
    stray_byte(&vault);
    long_name(&vault)
}

/// The file of the log. Its nonces are for show only, as the content key is.
fn written(vault: &Vault) -> Result<Vec<u8>, Refusal> {
    let nonce_len = vault.combo().nonce_len();
    let header_nonce = vec![4; nonce_len];
    let chunks = LOG.len().div_ceil(skrapnefja::CHUNK_LEN);
    let chunk_nonces: Vec<u8> = (0..chunks).flat_map(|i| vec![i as u8; nonce_len]).collect();

    let mut file = vec![0; vault.file_length(LOG.len() as u64)?];
    vault.write_file(&header_nonce, &CONTENT_KEY, &chunk_nonces, LOG, &mut file)?;
    let combo = vault.combo();
    println!(
        "{combo:?}: {} bytes are stored in {}",
        LOG.len(),
        file.len()
    );
    Ok(file)
}

/// The file whole, its header, and a part of it.
fn read(vault: &Vault, file: &[u8]) -> Result<(), Refusal> {
    let mut opened = vec![0; vault.cleartext_length(file.len() as u64)?];
    vault.open_file(file, &mut opened)?;
    assert_eq!(opened, LOG);
    print!("opened:\n{}", String::from_utf8_lossy(&opened));

    let (header, mut key) = (&file[..vault.combo().header_len()], [0; KEY_LEN]);
    let opened = vault.open_header(header, &mut key)?;
    assert_eq!(key, CONTENT_KEY);
    println!("its header has the reserved bytes {:x?}", opened.reserved);

    let mut part = [0; 9];
    vault.read_range(file, 6, 9, &mut part)?;
    println!("bytes 6 to 14: {}", String::from_utf8_lossy(&part));

    let outside = vault.read_range(file, u64::MAX, 1, &mut part);
    assert_eq!(outside, Err(Refusal::Range));
    println!("past the end: row 6, {}", Refusal::Range);
    Ok(())
}

/// A file does not open in a vault of the other combo. Where its length is that
/// of some file there, as here, its header is not genuine.
fn the_other_combo(other: &Vault, file: &[u8]) -> Result<(), Refusal> {
    let mut out = vec![0; other.cleartext_length(file.len() as u64)?];
    assert_eq!(other.open_file(file, &mut out), Err(Refusal::Header));
    println!("as {:?}: row 9, {}", other.combo(), Refusal::Header);
    Ok(())
}

fn name(vault: &Vault) -> Result<(), Refusal> {
    let mut path = [0; skrapnefja::PATH_LEN];
    vault.dir_path(b"", &mut path)?;
    let mut stored = [0; skrapnefja::MAX_STORED_LEN];
    let mut full = [0; skrapnefja::MAX_FULL_LEN];
    let written = vault.write_name(b"", b"log.txt", &mut stored, &mut full)?;
    let WrittenName::Plain(length) = written else {
        unreachable!("with the threshold 220, a name of up to 146 bytes is stored as it is");
    };
    let stored = &stored[..length];
    println!(
        "stored as {}/{}",
        String::from_utf8_lossy(&path),
        String::from_utf8_lossy(stored)
    );

    // An opened name is UTF-8.
    let mut name = [0; skrapnefja::MAX_NAME_LEN];
    let length = vault.open_name(b"", stored, &mut name)?;
    let name = std::str::from_utf8(&name[..length]).expect("proper text");
    println!("which is {name}");
    Ok(())
}

/// What a repair desk shows of a stored name in which a character is wrong: the
/// text, and a mark under the place where it is broken.
fn mangled_name(vault: &Vault) {
    let mangled = "sSkjkq_Jxt1GuG05?MsZFowq9W9xHNY=.c9r";
    let mut name = [0; skrapnefja::MAX_NAME_LEN];
    let opened = vault.open_name(b"", mangled.as_bytes(), &mut name);
    let Err(refusal @ Refusal::Text(place)) = opened else {
        unreachable!("no stored name has a question mark");
    };
    println!("mangled: row 5, {refusal}");
    println!("    {mangled}");
    println!("    {:>1$}", '^', place as usize + 1);
}

/// In the older vault a name of 9 bytes is shortened. Its full name does not
/// open there as a stored name, and the pair of both does not open where the
/// full name itself is stored.
fn shortened_name(older: &Vault, vault: &Vault) -> Result<(), Refusal> {
    let mut stored = [0; skrapnefja::MAX_STORED_LEN];
    let mut full = [0; skrapnefja::MAX_FULL_LEN];
    let written = older.write_name(b"", b"train.log", &mut stored, &mut full)?;
    let WrittenName::Shortened { stored: s, full: f } = written else {
        unreachable!("the full name of 9 bytes has 40 characters");
    };
    let (stored, full) = (&stored[..s], &full[..f]);

    let mut opened = [0; skrapnefja::MAX_NAME_LEN];
    let length = older.open_long_name(b"", stored, full, &mut opened)?;
    assert_eq!(&opened[..length], b"train.log");
    let plain = older.open_name(b"", full, &mut opened);
    assert_eq!(plain, Err(Refusal::Text(32)));
    let pair = vault.open_long_name(b"", stored, full, &mut opened);
    assert_eq!(pair, Err(Refusal::HashName));
    println!(
        "with the threshold 36, 9 bytes stored as {}",
        String::from_utf8_lossy(stored)
    );
    Ok(())
}

/// A name that is not UTF-8 is refused, and nothing is stored.
fn stray_byte(vault: &Vault) {
    let mut stored = [0; skrapnefja::MAX_STORED_LEN];
    let written = vault.write_name(b"", b"log\xff", &mut stored, &mut []);
    assert_eq!((written, stored), (Err(Refusal::Name), [0; 220]));
    println!("log\\xff: row 3, {}", Refusal::Name);
}

/// A long name is stored as its hash name. Its full name is kept beside that,
/// and both are needed to open it.
fn long_name(vault: &Vault) -> Result<(), Refusal> {
    let name = "\u{10d0}".repeat(100);
    let mut stored = [0; skrapnefja::MAX_STORED_LEN];
    let mut full = [0; skrapnefja::MAX_FULL_LEN];
    let written = vault.write_name(b"", name.as_bytes(), &mut stored, &mut full)?;
    let WrittenName::Shortened { stored: s, full: f } = written else {
        unreachable!("the full name of 300 bytes has more than 220 characters");
    };
    let (stored, full) = (&stored[..s], &full[..f]);
    println!(
        "{} bytes stored as {}",
        name.len(),
        String::from_utf8_lossy(stored)
    );

    let mut opened = [0; skrapnefja::MAX_NAME_LEN];
    let length = vault.open_long_name(b"", stored, full, &mut opened)?;
    assert_eq!(&opened[..length], name.as_bytes());
    Ok(())
}
