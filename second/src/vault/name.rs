//! Names of entries, plain and shortened.

use super::directory::check_id;
use super::sizes::{put, room};
use super::text::{full_len, full_name, hash_name, sealed_name};
use super::text::{HASH_NAME_LEN, MAX_FULL_LEN, MAX_NAME_LEN};
use super::threshold::check_threshold;
use super::{Refusal, Vault};
use crate::siv::{self, IV_LEN};
use crate::utf8;

/// The lengths of a written name.
#[derive(Clone, Copy, Debug, PartialEq, Eq)]
pub enum WrittenName {
    /// The full name is the stored name; the second buffer stays.
    Plain(usize),
    Shortened {
        stored: usize,
        full: usize,
    },
}

impl Vault {
    pub fn write_name(
        &self,
        dir_id: &[u8],
        name: &[u8],
        stored: &mut [u8],
        full: &mut [u8],
    ) -> Result<WrittenName, Refusal> {
        check_threshold(self.threshold)?;
        check_id(dir_id)?;
        Refusal::Name.unless((1..=MAX_NAME_LEN).contains(&name.len()))?;
        Refusal::Name.unless(utf8::is_proper(name))?;
        let length = full_len(name.len());
        let plain = self.is_plain(length);
        if plain {
            room(stored, length)?;
        } else {
            room(stored, HASH_NAME_LEN)?;
            room(full, length)?;
        }

        let text = full_name(&siv::seal(&self.mac, &self.enc, &[dir_id], name));
        if plain {
            return Ok(WrittenName::Plain(put(stored, text.as_bytes())));
        }
        Ok(WrittenName::Shortened {
            stored: put(stored, hash_name(text.as_bytes()).as_bytes()),
            full: put(full, text.as_bytes()),
        })
    }

    pub fn open_name(
        &self,
        dir_id: &[u8],
        stored: &[u8],
        out: &mut [u8],
    ) -> Result<usize, Refusal> {
        check_threshold(self.threshold)?;
        check_id(dir_id)?;
        let sealed = sealed_name(stored, self.threshold.into()).map_err(Refusal::Text)?;
        room(out, sealed.len() - IV_LEN)?;
        self.open_sealed_name(dir_id, &sealed, out)
    }

    /// Opens a name by its stored name, the hash, and its full name.
    pub fn open_long_name(
        &self,
        dir_id: &[u8],
        stored: &[u8],
        full: &[u8],
        out: &mut [u8],
    ) -> Result<usize, Refusal> {
        check_threshold(self.threshold)?;
        check_id(dir_id)?;
        let sealed = sealed_name(full, MAX_FULL_LEN).map_err(Refusal::Text)?;
        room(out, sealed.len() - IV_LEN)?;
        Refusal::HashName.unless(!self.is_plain(full.len()))?;
        Refusal::HashName.unless(stored == hash_name(full).as_bytes())?;
        self.open_sealed_name(dir_id, &sealed, out)
    }

    /// Whether a full name of this length is stored as it is.
    fn is_plain(&self, full_len: usize) -> bool {
        full_len <= usize::from(self.threshold)
    }

    /// Rows 12 and 3, in this order.
    fn open_sealed_name(
        &self,
        dir_id: &[u8],
        sealed: &[u8],
        out: &mut [u8],
    ) -> Result<usize, Refusal> {
        let name = siv::open(&self.mac, &self.enc, &[dir_id], sealed);
        let name = name.ok_or(Refusal::SyntheticIv)?;
        Refusal::Name.unless(utf8::is_proper(&name))?;
        Ok(put(out, &name))
    }
}

#[cfg(test)]
mod tests {
    use super::super::samples;
    use super::super::Combo;
    use super::*;

    fn vault() -> Vault {
        samples::vault(Combo::SivGcm)
    }

    #[test]
    fn written_names_open() {
        let vault = vault();
        for len in 1..=MAX_NAME_LEN {
            let name: Vec<_> = (0..len).map(|i| b'0' + i as u8 % 75).collect();
            let (mut stored, mut full, mut out) = ([0; 220], [0; 1388], [0; MAX_NAME_LEN]);
            let written = vault.write_name(b"id", &name, &mut stored, &mut full);
            let opened = match written {
                Ok(WrittenName::Plain(length)) => {
                    assert_eq!((length, full), (full_len(len), [0; 1388]));
                    assert!(len <= 146);
                    vault.open_name(b"id", &stored[..length], &mut out)
                }
                Ok(WrittenName::Shortened {
                    stored: short,
                    full: length,
                }) => {
                    assert_eq!((short, length), (32, full_len(len)));
                    let pair = (&stored[..short], &full[..length]);
                    vault.open_long_name(b"id", pair.0, pair.1, &mut out)
                }
                Err(refusal) => panic!("{refusal:?}"),
            };
            assert_eq!((opened, &out[..len]), (Ok(len), &name[..]));
        }
    }

    /// Each threshold, with full names of up to eight characters more and less.
    #[test]
    fn thresholds() {
        for threshold in 36..=220 {
            let vault = samples::vault_with(Combo::SivGcm, threshold);
            let near = (1..=160).filter(|&len| full_len(len).abs_diff(threshold.into()) <= 8);
            for len in near {
                let (mut stored, mut full, mut out) = ([0; 220], [0; 1388], [0; 160]);
                let written = vault.write_name(b"id", &vec![b'n'; len], &mut stored, &mut full);
                if full_len(len) <= usize::from(threshold) {
                    assert_eq!(written, Ok(WrittenName::Plain(full_len(len))));
                    let plain = &stored[..full_len(len)];
                    assert_eq!(vault.open_name(b"id", plain, &mut out), Ok(len));
                    let hash = hash_name(plain);
                    let opened = vault.open_long_name(b"id", hash.as_bytes(), plain, &mut out);
                    assert_eq!(opened, Err(Refusal::HashName));
                } else {
                    let lengths = (32, full_len(len));
                    let (hash, full) = (&stored[..lengths.0], &full[..lengths.1]);
                    assert_eq!(
                        written,
                        Ok(WrittenName::Shortened {
                            stored: lengths.0,
                            full: lengths.1
                        })
                    );
                    let opened = vault.open_long_name(b"id", hash, full, &mut out);
                    assert_eq!(opened, Ok(len));
                    let opened = vault.open_name(b"id", full, &mut out);
                    let most = usize::from(threshold) / 4 * 4 - 4;
                    assert_eq!(opened, Err(Refusal::Text(most)));
                }
            }
        }
    }

    /// Row 18 with a directory ID, name, text and room that are all wrong.
    #[test]
    fn no_threshold() {
        for threshold in (0..36).chain(221..=255) {
            let vault = samples::vault_with(Combo::SivGcm, threshold);
            for (id, text) in [(&b"id"[..], &b"name"[..]), (&[255; 37], b"")] {
                let refusals = [
                    vault.write_name(id, text, &mut [], &mut []).err(),
                    vault.open_name(id, text, &mut []).err(),
                    vault.open_long_name(id, text, text, &mut []).err(),
                ];
                assert_eq!(refusals, [Some(Refusal::Threshold); 3]);
            }
            assert_eq!(vault.dir_path(b"id", &mut [0; 36]), Ok(36));
        }
    }

    /// The place is in the stored name where that is opened by itself, and in the
    /// full name otherwise. The limits are not the same.
    #[test]
    fn places() {
        let vault = samples::vault_with(Combo::SivGcm, 36);
        let [short, long] = [32, 36].map(|digits| "A".repeat(digits) + ".c9r");
        for (text, plain, full) in [
            ("", 0, 0),
            ("A.c9r", 1, 1),
            (&short[..35], 35, 35),
            (&short.replace(".c9r", ".c9s"), 35, 35),
            (&long.replace(".c9r", ""), 32, 36),
            (&long.replace(".c9r", ".c9r+"), 32, 40),
        ] {
            let opened = vault.open_name(b"id", text.as_bytes(), &mut []);
            assert_eq!(opened, Err(Refusal::Text(plain)), "{text}");
            let opened = vault.open_long_name(b"id", b"", text.as_bytes(), &mut []);
            assert_eq!(opened, Err(Refusal::Text(full)), "{text}");
        }
        let opened = vault.open_name(b"id", long.as_bytes(), &mut []);
        assert_eq!(opened, Err(Refusal::Text(32)));
        for text in [short, long] {
            let opened = vault.open_long_name(b"id", b"", text.as_bytes(), &mut []);
            assert_eq!(opened, Err(Refusal::Room));
        }
    }

    #[test]
    fn not_text() {
        let vault = vault();
        for name in [&b"\xff"[..], b"a/b", b"\0", b"caf\xc3"] {
            let mut stored = [7; 220];
            let written = vault.write_name(b"id", name, &mut stored, &mut []);
            assert_eq!((written, stored), (Err(Refusal::Name), [7; 220]));

            let text = full_name(&siv::seal(&vault.mac, &vault.enc, &[b"id"], name));
            let mut out = [7; 8];
            let opened = vault.open_name(b"id", text.as_bytes(), &mut out);
            assert_eq!((opened, out), (Err(Refusal::Name), [7; 8]));
            let opened = vault.open_name(b"other", text.as_bytes(), &mut out);
            assert_eq!((opened, out), (Err(Refusal::SyntheticIv), [7; 8]));
        }
    }

    /// The ID of the root is empty, yet there: not as for a path.
    #[test]
    fn root() {
        let vault = vault();
        let mut stored = [0; 220];
        let written = vault.write_name(b"", b"name", &mut stored, &mut []);
        assert_eq!(written, Ok(WrittenName::Plain(32)));
        let sealed = sealed_name(&stored[..32], 32).expect("a full name");
        assert_eq!(
            siv::open(&vault.mac, &vault.enc, &[b""], &sealed),
            Some(b"name".to_vec())
        );
        assert_eq!(siv::open(&vault.mac, &vault.enc, &[], &sealed), None);
    }

    #[test]
    fn moved() {
        let vault = vault();
        let mut stored = [0; 220];
        let written = vault.write_name(b"here", b"name", &mut stored, &mut []);
        assert_eq!(written, Ok(WrittenName::Plain(32)));
        let mut out = [7; 4];
        let opened = vault.open_name(b"there", &stored[..32], &mut out);
        assert_eq!((opened, out), (Err(Refusal::SyntheticIv), [7; 4]));
    }

    /// The combo is one of contents.
    #[test]
    fn either_combo() {
        for name in [vec![b'n'; 146], vec![b'n'; 147]] {
            let [gcm, ctrmac] = Combo::ALL.map(samples::vault).map(|vault| {
                let (mut stored, mut full) = ([0; 220], [0; 1388]);
                let written = vault.write_name(b"id", &name, &mut stored, &mut full);
                (written, stored, full)
            });
            assert_eq!(gcm, ctrmac);
        }
    }
}
