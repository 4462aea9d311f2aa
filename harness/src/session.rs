//! What opens books and serves calls.

use crate::ffi;
pub use crate::ffi::Opened;

/// A session, or one that stands in for it.
pub trait Desk {
    /// Opens a book in the words.
    fn open(&self, words: &mut [u64], rules: u32, bound: u32) -> Opened;

    /// Answers a call in 24 bytes, if there is room, and says how many it wrote.
    fn serve(&self, words: &mut [u64], bytes: &[u8], out: &mut [u8]) -> usize;
}

/// That of the library.
#[derive(Clone, Copy, Debug)]
pub struct Session;

impl Desk for Session {
    fn open(&self, words: &mut [u64], rules: u32, bound: u32) -> Opened {
        ffi::open(words, rules, bound)
    }

    fn serve(&self, words: &mut [u64], bytes: &[u8], out: &mut [u8]) -> usize {
        ffi::serve(words, bytes, out)
    }
}
