//! The proved library across its C boundary.

mod ffi {
    unsafe extern "C" {
        pub fn polungaw_run(text: *const u8, text_len: usize, out: *mut u8, out_len: usize) -> i64;
        pub fn polungaw_room(text_len: usize) -> usize;
        pub fn polungaw_table_bytes() -> usize;
    }
}

/// What `polungaw_run` answers where the output doesn't fit.
pub const NO_ROOM: i64 = -1;

/// Fills `out` with what is printed of the text, and answers as the library does.
pub fn run(text: &[u8], out: &mut [u8]) -> i64 {
    // SAFETY: both pointers are those of slices, with their lengths, and the slices don't overlap.
    unsafe { ffi::polungaw_run(text.as_ptr(), text.len(), out.as_mut_ptr(), out.len()) }
}

/// A length of `out` that always suffices.
pub fn room(text_len: usize) -> usize {
    // SAFETY: it takes and gives a number.
    unsafe { ffi::polungaw_room(text_len) }
}

/// The size of the table in bytes, the largest over all policies.
pub fn table_bytes() -> usize {
    // SAFETY: it takes nothing and gives a number.
    unsafe { ffi::polungaw_table_bytes() }
}

/// What is printed of a text, or what the library answered in place of a length.
pub fn printed(text: &[u8]) -> Result<Vec<u8>, i64> {
    let mut out = vec![0; room(text.len())];
    let answer = run(text, &mut out);
    out.truncate(usize::try_from(answer).map_err(|_| answer)?);
    Ok(out)
}

#[cfg(test)]
mod tests {
    use super::*;
    use crate::generate::{self, Kind};
    use crate::rng::Rng;
    use crate::runner;
    use std::thread;

    #[test]
    fn the_table_fits_8_kib() {
        assert!(table_bytes() <= 8192);
    }

    #[test]
    fn the_room_grows_with_the_text_up_to_the_longest() {
        assert_eq!(room(0), 35);
        assert_eq!(room(100), 3_535);
        assert_eq!(room(60_000), 2_100_035);
        assert_eq!(room(60_001), 2_100_035);
        assert_eq!(room(usize::MAX), 2_100_035);
    }

    #[test]
    fn calls_of_several_threads_do_not_meet() {
        let agree = |seed| {
            let mut rng = Rng::new(seed);
            for _ in 0..200 {
                let text = generate::text(Kind::Conflict, &mut rng);
                assert_eq!(printed(&text), Ok(runner::run(&text)));
            }
        };
        thread::scope(|scope| {
            for seed in 0..4 {
                scope.spawn(move || agree(seed));
            }
        });
    }
}
