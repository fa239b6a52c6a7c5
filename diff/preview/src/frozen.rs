//! Words in memory that can't be written: a write would end the program, even one that is taken back.
use std::alloc::{alloc, Layout};
use std::io::Error;

extern "C" {
    fn mprotect(address: *mut u32, bytes: usize, protection: i32) -> i32;
}
const READ: i32 = 1;
const READ_AND_WRITE: i32 = 3;

/// Whole pages, wherever a page has 4, 16 or 64 kB; and as many of them as a table needs
const PAGES: usize = 1 << 16;
const BYTES: usize = 8 * PAGES;

pub struct Frozen {
    start: *mut u32,
    /// That can't be written now
    bytes: usize,
}

impl Frozen {
    /// Memory that is kept until the program ends
    pub fn new() -> Frozen {
        // SAFETY: the size isn't 0
        let start = unsafe { alloc(Layout::from_size_align(BYTES, PAGES).expect("whole pages")) };
        assert!(!start.is_null(), "no memory");
        Frozen { start: start.cast(), bytes: 0 }
    }

    /// A copy of these words, until others are held
    pub fn hold(&mut self, words: &[u32]) -> &[u32] {
        assert!(size_of_val(words) <= BYTES, "more words than a table has");
        self.allow(READ_AND_WRITE);
        // SAFETY: there is room for the words, and as `self` is borrowed uniquely nobody holds what was there
        let held = unsafe {
            std::ptr::copy_nonoverlapping(words.as_ptr(), self.start, words.len());
            std::slice::from_raw_parts(self.start, words.len())
        };
        self.bytes = size_of_val(words).next_multiple_of(PAGES);
        self.allow(READ);
        held
    }

    fn allow(&self, protection: i32) {
        // SAFETY: these are whole pages of those that were allocated, which nothing else uses
        let result = unsafe { mprotect(self.start, self.bytes, protection) };
        assert_eq!(result, 0, "{}", Error::last_os_error());
    }
}
