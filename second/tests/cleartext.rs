//! No writer puts its cleartext, or the content key, into the lent buffer
//! before it enciphers it.
//!
//! The pages of the buffer may not be written at first. Whenever the library
//! writes to the next one, what it has written so far is looked at. This is
//! for Linux on x86-64.

use skrapnefja::{Combo, Label, Vault};
use std::ffi::{c_int, c_void};
use std::ops::Range;
use std::sync::atomic::{AtomicBool, AtomicUsize, Ordering::SeqCst};
use std::{ptr, slice};

const PAGE: usize = 4096;

/// A file of three chunks has fewer pages than these.
const PAGES: usize = 32;

const CLEAR: u8 = 0xa5;

/// The buffer's first page, the part of it that is looked at, the page that is
/// to be written next, and whether half a block of clear bytes was seen.
static BASE: AtomicUsize = AtomicUsize::new(0);
static FROM: AtomicUsize = AtomicUsize::new(0);
static NEXT: AtomicUsize = AtomicUsize::new(0);
static SEEN: AtomicBool = AtomicBool::new(false);

extern "C" {
    fn mmap(
        at: *mut c_void,
        len: usize,
        access: c_int,
        how: c_int,
        fd: c_int,
        from: i64,
    ) -> *mut u8;
    fn mprotect(at: *mut u8, len: usize, access: c_int) -> c_int;
    fn signal(number: c_int, handler: extern "C" fn(c_int)) -> *mut c_void;
}

const READ: c_int = 1;
const READ_WRITE: c_int = 3;
const PRIVATE_ANONYMOUS: c_int = 0x22;
const SIGSEGV: c_int = 11;

/// Looks at the bytes so far, and lets the next page be written.
extern "C" fn next_page(_: c_int) {
    let (page, from) = (NEXT.fetch_add(1, SeqCst), FROM.load(SeqCst));
    assert!(page < PAGES);
    let base = BASE.load(SeqCst) as *mut u8;
    // SAFETY: all pages are there, and those up to this one are written by no
    // one else meanwhile.
    unsafe {
        if from < page * PAGE {
            let written = slice::from_raw_parts(base.add(from), page * PAGE - from);
            if written.windows(8).any(|half| half == [CLEAR; 8]) {
                SEEN.store(true, SeqCst);
            }
        }
        mprotect(base.add(page * PAGE), PAGE, READ_WRITE);
    }
}

/// Were clear bytes seen in the part of the buffer while the writer ran?
fn seen(part: Range<usize>, write: impl FnOnce(&mut [u8])) -> bool {
    let base = BASE.load(SeqCst) as *mut u8;
    FROM.store(part.start, SeqCst);
    NEXT.store(part.start / PAGE, SeqCst);
    SEEN.store(false, SeqCst);
    // SAFETY: the pages are this test's own.
    let out = unsafe {
        mprotect(base, PAGES * PAGE, READ_WRITE);
        ptr::write_bytes(base, 0, PAGES * PAGE);
        mprotect(base, PAGES * PAGE, READ);
        slice::from_raw_parts_mut(base.add(part.start), part.len())
    };
    write(out);
    assert!(
        NEXT.load(SeqCst) > 1,
        "the buffer lies on two pages or more"
    );
    SEEN.load(SeqCst)
}

#[test]
fn no_cleartext_in_the_buffer() {
    // SAFETY: memory of this test's own, and a handler that takes a number.
    unsafe {
        let base = mmap(
            ptr::null_mut(),
            PAGES * PAGE,
            READ,
            PRIVATE_ANONYMOUS,
            -1,
            0,
        );
        BASE.store(base as usize, SeqCst);
        signal(SIGSEGV, next_page);
    }
    assert!(
        seen(0..2 * PAGE, |out| out.fill(CLEAR)),
        "clear bytes are seen"
    );
    let key = [CLEAR; 32];
    let cleartext = vec![CLEAR; 70_000];
    let nonces: Vec<u8> = (0..48).collect();
    for combo in [Combo::SivGcm, Combo::SivCtrmac] {
        let label = Label {
            combo,
            threshold: 220,
        };
        let vault = Vault::new(&[1; 32], &[2; 32], label).expect("a vault");
        let w = combo.nonce_len();
        let one = &nonces[..w];
        let file = |out: &mut [u8]| {
            let n = vault.write_file(one, &[3; 32], &nonces[..3 * w], &cleartext, out);
            assert!(n.is_ok());
        };
        assert!(!seen(0..PAGES * PAGE, file), "of a file");
        let chunk = |out: &mut [u8]| {
            let n = vault.write_chunk(&key, one, 0, one, &cleartext[..32_768], out);
            assert!(n.is_ok());
        };
        // Each page begins in the middle of a block, as in the file's last chunk.
        assert!(!seen(24 - w..PAGES * PAGE, chunk), "of a chunk");
        let header = |out: &mut [u8]| assert!(vault.write_header(one, &key, out).is_ok());
        // The second page begins in the middle of the content key's second block,
        // and then in its last bytes.
        for before in [24, 36] {
            let start = PAGE - w - before;
            assert!(!seen(start..2 * PAGE, header), "of a header");
        }
    }
}
