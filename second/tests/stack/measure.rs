//! How much stack a call takes.
//!
//! It runs on a stack of its own that is filled with one byte. The part that no
//! longer has this byte after the call is what it used, together with the
//! little that getting there takes. This is for x86-64, as the library is.

use std::arch::asm;
use std::ffi::c_void;

/// The size of the stack that a call runs on.
const AREA: usize = 1 << 20;

/// Two fillings, since a call may by chance write one of them.
const FILLINGS: [u8; 2] = [0xa5, 0x5a];

/// A block of a stack, as it must be aligned.
#[derive(Clone, Copy)]
#[repr(align(16))]
struct Block([u8; 16]);

/// The bytes of stack that a call used.
pub fn used(mut call: impl FnMut()) -> usize {
    let of_each = FILLINGS.map(|filling| used_of(filling, &mut call));
    of_each.into_iter().max().expect("there are two")
}

/// How many bytes from the top on are not all as they were.
fn used_of(filling: u8, call: &mut dyn FnMut()) -> usize {
    let mut area = vec![Block([filling; 16]); AREA / 16];
    let mut call = call;
    // SAFETY: the area is large enough for what is called, and `enter` gets
    // the pointer that it expects.
    unsafe {
        let top = area.as_mut_ptr_range().end.cast();
        on_stack(top, enter, (&raw mut call).cast());
    }
    let rest = area.iter().position(|block| block.0 != [filling; 16]);
    AREA - rest.map_or(AREA, |blocks| 16 * blocks)
}

/// Makes the call that the pointer is to.
extern "C" fn enter(call: *mut c_void) {
    // SAFETY: `used_of` passes a pointer to this.
    let call: &mut &mut dyn FnMut() = unsafe { &mut *call.cast() };
    call();
}

/// Calls a function with the stack pointer at `top`.
///
/// # Safety
/// The memory below `top` is the function's to write to, `top` is aligned to
/// 16 bytes, and the function does not unwind.
unsafe fn on_stack(top: *mut c_void, function: extern "C" fn(*mut c_void), data: *mut c_void) {
    // SAFETY: r12 is kept by the function, and all that it may change is named.
    unsafe {
        asm!(
            "mov r12, rsp",
            "mov rsp, {top}",
            "call {function}",
            "mov rsp, r12",
            top = in(reg) top,
            function = in(reg) function,
            in("rdi") data,
            out("r12") _,
            clobber_abi("C"),
        );
    }
}
