//! Goes from the two files in a vault's folder to an open file: unwraps the
//! master keys of `masterkey.cryptomator`, opens the label, which is
//! `vault.cryptomator`, makes the vault of both, and opens `log.c9r`. Then it
//! writes a file and a name in that vault and opens them, and wraps the master
//! keys for a new password. Its argument is the folder, `samples` of the
//! repository if there is none.

use skrapnefja::{Label, Refusal, Vault, WrittenName, KEY_LEN, RAW_KEY_LEN};
use std::error::Error;
use std::path::{Path, PathBuf};
use std::{env, fs};

const SAMPLES: &str = concat!(env!("CARGO_MANIFEST_DIR"), "/../../samples");

/// scrypt of the password `signalbox`, with the salt and the parameters of
/// `masterkey.cryptomator`.
#[rustfmt::skip]
const KEK: [u8; KEY_LEN] = [
    0xff, 0xcf, 0x56, 0xdb, 0x23, 0x9c, 0xb1, 0x26, 0x8f, 0x68, 0x94, 0x7c, 0x66, 0x0d, 0x48, 0x14,
    0x8d, 0x74, 0x15, 0x4e, 0x86, 0x59, 0xef, 0xa7, 0xd3, 0xa5, 0x01, 0x2a, 0x8c, 0xd1, 0xd3, 0xc6,
];

/// In place of scrypt of another password.
const OTHER_KEK: [u8; KEY_LEN] = [10; KEY_LEN];

/// What the two files say.
#[derive(Clone)]
struct VaultFiles {
    primary_master_key: Vec<u8>,
    hmac_master_key: Vec<u8>,
    label: Vec<u8>,
}

fn main() -> Result<(), Box<dyn Error>> {
    let folder = env::args_os()
        .nth(1)
        .map_or(PathBuf::from(SAMPLES), PathBuf::from);
    let files = VaultFiles::load(&folder)?;
    let vault = files.unlock(&KEK)?;
    println!("unlocked: {:?}", vault.label());
    another_password(&files);
    a_changed_label(&files);

    log(&vault, &folder)?;
    file(&vault)?;
    name(&vault)?;
    a_new_password(files)?;
    Ok(())
}

impl VaultFiles {
    fn load(folder: &Path) -> Result<Self, Box<dyn Error>> {
        let text = fs::read_to_string(folder.join("masterkey.cryptomator"))?;
        let wrapped_key = |name| {
            let key = member(&text, name).and_then(base64);
            key.ok_or(format!("no {name}"))
        };
        Ok(VaultFiles {
            primary_master_key: wrapped_key("primaryMasterKey")?,
            hmac_master_key: wrapped_key("hmacMasterKey")?,
            label: fs::read(folder.join("vault.cryptomator"))?,
        })
    }

    /// The way from the key-encryption key to the vault.
    fn unlock(&self, kek: &[u8]) -> Result<Vault, Refusal> {
        let mut raw_key = [0; RAW_KEY_LEN];
        let (enc, mac) = raw_key.split_at_mut(KEY_LEN);
        skrapnefja::unwrap_key(kek, &self.primary_master_key, enc)?;
        skrapnefja::unwrap_key(kek, &self.hmac_master_key, mac)?;

        let label = Label::open(&raw_key, &self.label)?;
        let (enc, mac) = raw_key.split_at(KEY_LEN);
        Vault::new(enc, mac, label)
    }
}

/// The text between the two quotation marks behind a member's name. This will
/// do for the sample; a real program has a JSON reader.
fn member<'a>(text: &'a str, name: &str) -> Option<&'a str> {
    let (_, behind) = text.split_once(&format!("\"{name}\""))?;
    behind.split('"').nth(1)
}

/// The bytes of base64 with padding: of each group of four characters three,
/// and one less for each `=`.
fn base64(text: &str) -> Option<Vec<u8>> {
    const DIGITS: &str = "ABCDEFGHIJKLMNOPQRSTUVWXYZabcdefghijklmnopqrstuvwxyz0123456789+/";
    let unpadded = text.trim_end_matches('=');
    let mut bytes = Vec::new();
    for group in unpadded.as_bytes().chunks(4) {
        let mut bits = 0;
        for place in 0..4 {
            let digit = group
                .get(place)
                .map_or(Some(0), |&c| DIGITS.find(c as char));
            bits = bits << 6 | digit? as u32;
        }
        bytes.extend(&bits.to_be_bytes()[1..group.len()]);
    }
    Some(bytes)
}

fn another_password(files: &VaultFiles) {
    let refusal = files.unlock(&OTHER_KEK).unwrap_err();
    assert_eq!(refusal, Refusal::CheckValue);
    println!("with another password: row 20, {refusal}");
}

/// A label that was changed is not believed, and neither is one of another
/// vault. Where a character is none of base64url, its place is told.
fn a_changed_label(files: &VaultFiles) {
    let mut files = files.clone();
    let place = files.label.len() - 2;
    files.label[place] ^= 1; // In the signature; it is still base64url.
    let refusal = files.unlock(&KEK).unwrap_err();
    assert_eq!(refusal, Refusal::Signature);
    println!("with a changed label: row 15, {refusal}");

    files.label[40] = b'?';
    let refusal = files.unlock(&KEK).unwrap_err();
    assert_eq!(refusal, Refusal::Label(Some(40)));
    println!("with a mangled label: row 13, {refusal}");
}

fn log(vault: &Vault, folder: &Path) -> Result<(), Box<dyn Error>> {
    let file = fs::read(folder.join("log.c9r"))?;
    let mut log = vec![0; vault.cleartext_length(file.len() as u64)?];
    vault.open_file(&file, &mut log)?;
    let log = String::from_utf8(log)?;
    let first = log.lines().next().unwrap_or_default();
    println!("opened log.c9r, {} bytes: {first} ..", log.len());
    Ok(())
}

/// For show only: a program draws the content key and the nonces from a random
/// generator. The nonces have the size that the label's combo has.
fn file(vault: &Vault) -> Result<(), Refusal> {
    let cleartext = b"14:02 handset 7 takes train 12";
    let nonce_len = vault.combo().nonce_len();
    let (header_nonce, chunk_nonce) = (vec![4; nonce_len], vec![5; nonce_len]);

    let mut file = vec![0; vault.file_length(cleartext.len() as u64)?];
    vault.write_file(
        &header_nonce,
        &[3; KEY_LEN],
        &chunk_nonce,
        cleartext,
        &mut file,
    )?;
    let mut opened = vec![0; cleartext.len()];
    vault.open_file(&file, &mut opened)?;
    assert_eq!(opened, cleartext);
    println!("wrote and opened a file of {} bytes", file.len());
    Ok(())
}

/// Whether a name is stored as it is or by its hash name goes by the label's
/// threshold.
fn name(vault: &Vault) -> Result<(), Refusal> {
    let name = b"log.txt";
    let mut stored = [0; skrapnefja::MAX_STORED_LEN];
    let written = vault.write_name(b"", name, &mut stored, &mut [])?;
    let WrittenName::Plain(length) = written else {
        unreachable!("a name of up to 8 bytes is stored as it is under any threshold");
    };
    let stored = &stored[..length];
    println!("log.txt is stored as {}", String::from_utf8_lossy(stored));

    let mut opened = [0; skrapnefja::MAX_NAME_LEN];
    let length = vault.open_name(b"", stored, &mut opened)?;
    assert_eq!(&opened[..length], name);
    Ok(())
}

/// The other password becomes that of the vault. Its master keys stay, and so
/// does the label.
fn a_new_password(mut files: VaultFiles) -> Result<(), Refusal> {
    for wrapped_key in [&mut files.primary_master_key, &mut files.hmac_master_key] {
        let mut key = [0; KEY_LEN];
        skrapnefja::unwrap_key(&KEK, wrapped_key, &mut key)?;
        skrapnefja::wrap_key(&OTHER_KEK, &key, wrapped_key)?;
    }
    files.unlock(&OTHER_KEK)?;
    assert_eq!(files.unlock(&KEK).unwrap_err(), Refusal::CheckValue);
    println!("changed the password");
    Ok(())
}
