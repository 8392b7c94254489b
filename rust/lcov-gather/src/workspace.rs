//! Scratch and output that are lent to the library's calls, again and again.

use lcov_sys::{Refusal, MAX_ENTRIES, OUTPUT_TOO_SHORT, WORDS, WORDS_PER_ENTRY};

/// The length of an output is a multiple of it.
const STEP: usize = 1 << 20;

/// Scratch and an output, as long as the calls so far needed them.
#[derive(Default)]
pub struct Workspace {
    scratch: Vec<u64>,
    out: Vec<u8>,
}

impl Workspace {
    /// What a call writes that reads so many bytes, given an output that it finds long enough: at most twice. The scratch allows so many
    /// entries, or the most; a short one stays in the processor's caches.
    pub fn written(
        &mut self,
        call: impl Fn(&mut [u64], &mut [u8], &mut [u64]) -> u32,
        read: usize,
        entries: usize,
    ) -> Result<&[u8], Refusal> {
        self.lengthen(lcov_sys::roomy(read));
        let words = entries.min(MAX_ENTRIES) * WORDS_PER_ENTRY;
        if self.scratch.len() < words {
            self.scratch = Vec::new();
            self.scratch = vec![0; words];
        }
        loop {
            let mut answer = [0; WORDS];
            let number = call(&mut self.scratch[..words], &mut self.out, &mut answer);
            match Refusal::unless_answered(number, answer) {
                Ok(len) => return Ok(&self.out[..len as usize]),
                Err(refusal)
                    if refusal.number == OUTPUT_TOO_SHORT && refusal.needed > self.out.len() =>
                {
                    self.lengthen(refusal.needed);
                }
                Err(refusal) => return Err(refusal),
            }
        }
    }

    /// The old output is dropped and not copied, which would touch both. The new one is long enough for a slightly longer round too.
    fn lengthen(&mut self, len: usize) {
        if self.out.len() < len {
            self.out = Vec::new();
            self.out = vec![0; len.next_multiple_of(STEP)];
        }
    }
}
