//! The proved library: the link engine and the watch above it.

use crate::input::Input;
use crate::tally::Tally;

// A slice goes as a pointer and then a length. The functions take a book as its cues one behind the other
// and the length of each.
#[link(name = "bench_api", kind = "static")]
#[link(name = "libc_c", kind = "static")]
unsafe extern "C" {
    fn bench_step(
        cues: *const u16,
        cues_len: usize,
        lens: *const u16,
        lens_len: usize,
        signs: *const u16,
        signs_len: usize,
    ) -> Tally;

    fn bench_follow(
        cues: *const u16,
        cues_len: usize,
        lens: *const u16,
        lens_len: usize,
        text: *const u16,
        text_len: usize,
    ) -> Tally;

    fn bench_signs(
        cues: *const u16,
        cues_len: usize,
        lens: *const u16,
        lens_len: usize,
        text: *const u16,
        text_len: usize,
        signs: *mut u16,
        signs_len: usize,
    ) -> u64;
}

/// A book as the library takes it.
pub struct Watched {
    cues: Vec<u16>,
    lens: Vec<u16>,
}

impl Watched {
    pub fn new(input: &Input) -> Watched {
        Watched {
            cues: input.cues.concat(),
            lens: input.cues.iter().map(|c| c.len() as u16).collect(),
        }
    }

    /// Loads the book and steps through the signs.
    pub fn step(&self, signs: &[u16]) -> Tally {
        let (cues, lens) = (&self.cues, &self.lens);
        // SAFETY: each pointer is that of a slice of the length behind it.
        unsafe {
            bench_step(
                cues.as_ptr(),
                cues.len(),
                lens.as_ptr(),
                lens.len(),
                signs.as_ptr(),
                signs.len(),
            )
        }
    }

    /// Loads the book and follows the events.
    pub fn follow(&self, text: &[u16]) -> Tally {
        let (cues, lens) = (&self.cues, &self.lens);
        // SAFETY: as above.
        unsafe {
            bench_follow(
                cues.as_ptr(),
                cues.len(),
                lens.as_ptr(),
                lens.len(),
                text.as_ptr(),
                text.len(),
            )
        }
    }

    /// The signs of the events under the book.
    pub fn signs(&self, text: &[u16]) -> Vec<u16> {
        let (cues, lens) = (&self.cues, &self.lens);
        let mut signs = vec![0; text.len()];
        // SAFETY: as above, and the signs are lent to nobody else.
        let status = unsafe {
            bench_signs(
                cues.as_ptr(),
                cues.len(),
                lens.as_ptr(),
                lens.len(),
                text.as_ptr(),
                text.len(),
                signs.as_mut_ptr(),
                signs.len(),
            )
        };
        assert_eq!(status, 0, "the book is refused");
        signs
    }
}
