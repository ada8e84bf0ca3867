//! Directory IDs, and the paths of directories.

use super::sizes::{put, room};
use super::{Refusal, Vault};
use crate::{base32, sha1, siv};

const PATH_LEN: usize = 36;

impl Vault {
    pub fn dir_path(&self, dir_id: &[u8], out: &mut [u8]) -> Result<usize, Refusal> {
        check_id(dir_id)?;
        room(out, PATH_LEN)?;
        let sealed = siv::seal(&self.mac, &self.enc, &[], dir_id);
        let hash = base32::encode(&sha1::digest(&sealed));
        let (start, rest) = hash.split_at(2);
        Ok(put(out, format!("/d/{start}/{rest}").as_bytes()))
    }
}

/// Row 2.
pub fn check_id(dir_id: &[u8]) -> Result<(), Refusal> {
    Refusal::DirectoryId.unless(dir_id.len() <= 36 && dir_id.is_ascii())
}

#[cfg(test)]
mod tests {
    use super::super::Combo;
    use super::*;

    /// A value of the stock program's tests: the root, in either combo.
    #[test]
    fn stock_program() {
        for combo in Combo::ALL {
            let vault = Vault::new(&[0x55; 32], &[0x77; 32], combo, 220).expect("two keys");
            let mut out = [b'.'; PATH_LEN + 1];
            assert_eq!(vault.dir_path(b"", &mut out), Ok(PATH_LEN));
            assert_eq!(&out, b"/d/VL/WEHT553J5DR7OZLRJAYDIWFCXZABOD.");
        }
    }

    #[test]
    fn ids() {
        for (id, fits) in [
            (&[0; 0][..], true),
            (&[0; 36], true),
            (&[127; 36], true),
            (&[0; 37], false),
            (&[128], false),
            (&[255], false),
        ] {
            assert_eq!(check_id(id).is_ok(), fits);
        }
    }
}
