//! The calls of the static library on readers, as safe functions.

use skrapnefja::call;

/// Gives the row, or 0.
pub fn open_reader(vault: &[u8], file: &[u8], keys: &mut [u8], length: &mut u64) -> u32 {
    // SAFETY: each pointer is that of a slice, with its length, or of a number.
    unsafe { call!(skrapnefja_open_reader: in vault, in file, out keys, val length,) }
}

/// The same of a read.
pub fn reader_read(
    file: &[u8],
    keys: &[u8],
    from: u64,
    count: u64,
    out: &mut [u8],
    length: &mut u64,
    at: &mut u64,
) -> u32 {
    // SAFETY: as for the other.
    unsafe {
        call!(skrapnefja_reader_read:
            in file, in keys, val from, val count, out out, val length, val at,)
    }
}
