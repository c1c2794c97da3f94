//! The register, linked in as a static library.

use crate::call::{Answer, CELLS, Call, Cell, Contender};

// As `register_c.rt.txt` has it: a slice crosses as a pointer and a length.
unsafe extern "C" {
    fn register_c_days(
        words: *mut u32,
        words_len: usize,
        calls: *const Call,
        calls_len: usize,
        per_day: usize,
        answers: *mut Answer,
        answers_len: usize,
    );
}

// The kinds of a store's three words.
const VALUE: u32 = 0x9000_0000;
const WRITE: u32 = 0xE000_0000;
const READ: u32 = 0xF000_0000;

pub struct Linked {
    words: Vec<u32>,
}

impl Linked {
    pub fn new() -> Linked {
        Linked { words: [VALUE, WRITE, READ].repeat(CELLS) }
    }
}

impl Contender for Linked {
    fn name(&self) -> &'static str {
        "register"
    }

    fn clear(&mut self) {
        *self = Linked::new();
    }

    fn days(&mut self, calls: &[Call], per_day: usize, answers: &mut [Answer]) {
        // SAFETY: the declaration fits the library's, and each pointer and length are one slice's, lent for the call.
        unsafe {
            register_c_days(
                self.words.as_mut_ptr(),
                self.words.len(),
                calls.as_ptr(),
                calls.len(),
                per_day,
                answers.as_mut_ptr(),
                answers.len(),
            );
        }
    }

    fn cells(&self) -> Vec<Cell> {
        let stamp = |word: u32| (word & 0x0FFF_FFFF) as i32;
        let cell = |words: &[u32]| Cell { value: words[0] as i16, write: stamp(words[1]), read: stamp(words[2]) };
        self.words.chunks(3).map(cell).collect()
    }
}
