//! The model behind the boundary that the proved library has, for a fair measure.

use crate::proved::NO_ROOM;
use crate::runner;
use std::slice;

/// Does with the model what `polungaw_run` does.
///
/// # Safety
///
/// `text` and `out` are not null, and so many bytes can be read and written there. They don't
/// overlap.
#[unsafe(no_mangle)]
#[inline(never)]
pub unsafe extern "C" fn polungaw_model_run(
    text: *const u8,
    text_len: usize,
    out: *mut u8,
    out_len: usize,
) -> i64 {
    // SAFETY: the caller promises it.
    let (text, out) =
        unsafe { (slice::from_raw_parts(text, text_len), slice::from_raw_parts_mut(out, out_len)) };
    runner::run_into(text, out).map_or(NO_ROOM, |length| length as i64)
}

/// The same for slices.
pub fn run(text: &[u8], out: &mut [u8]) -> i64 {
    // SAFETY: both pointers are those of slices, with their lengths, and the slices don't overlap.
    unsafe { polungaw_model_run(text.as_ptr(), text.len(), out.as_mut_ptr(), out.len()) }
}
