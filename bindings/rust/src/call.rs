//! Calls of the library.

/// Calls a function of [`ffi`](crate::ffi), which is unsafe. Each argument is
/// an input slice (`in`), a buffer (`out`), a number (`val`) or a result to set
/// (`set`), in the function's own order. Exported for the comparisons only.
#[doc(hidden)]
#[macro_export]
macro_rules! call {
    ($function:ident: $($arguments:tt)*) => {
        $crate::call!(@ $function () $($arguments)*)
    };
    (@ $function:ident ($($passed:expr,)*) in $slice:ident, $($rest:tt)*) => {
        $crate::call!(@ $function ($($passed,)* $slice.as_ptr(), $slice.len(),) $($rest)*)
    };
    (@ $function:ident ($($passed:expr,)*) out $slice:ident, $($rest:tt)*) => {
        $crate::call!(@ $function ($($passed,)* $slice.as_mut_ptr(), $slice.len(),) $($rest)*)
    };
    (@ $function:ident ($($passed:expr,)*) val $number:ident, $($rest:tt)*) => {
        $crate::call!(@ $function ($($passed,)* $number,) $($rest)*)
    };
    (@ $function:ident ($($passed:expr,)*) set $result:ident, $($rest:tt)*) => {
        $crate::call!(@ $function ($($passed,)* &mut $result,) $($rest)*)
    };
    (@ $function:ident ($($passed:expr,)*)) => {
        $crate::ffi::$function($($passed),*)
    };
}

/// The same, with references that a function was lent and with numbers of its
/// own.
macro_rules! safely {
    ($($call:tt)*) => {
        // SAFETY: each pointer is that of a slice, with its length, and never
        // null, also where the slice is empty; or it is that of a
        // number. They are valid for the call, which keeps none of them, and
        // what is borrowed mutably overlaps nothing else.
        unsafe { $crate::call!($($call)*) }
    };
}

pub(crate) use safely;

use crate::Refusal;

/// The result of a call that gave this status, and the length and the `at` that
/// it set. The length is that of a slice, or at most that of the longest file.
pub fn done(status: u32, length: u64, at: u64) -> Result<usize, Refusal> {
    match status {
        0 => Ok(length as usize),
        row => Err(Refusal::new(row, at)),
    }
}
