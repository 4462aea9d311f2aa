//! All that is unsafe: the two functions of the library, and pages of memory between two that can't be touched.

use std::ffi::{c_int, c_void};
use std::io;
use std::marker::PhantomData;
use std::ptr::null_mut;
use std::slice::{from_raw_parts, from_raw_parts_mut};

/// The number and the place of the refusal of an opening; 0 and 0 where it was accepted.
#[repr(C)]
#[derive(Clone, Copy, Debug, PartialEq, Eq)]
pub struct Opened {
    pub number: u64,
    pub place: u64,
}

unsafe extern "C" {
    fn session_open(words: *mut u64, words_len: usize, rules: u32, bound: u32) -> Opened;
    fn session_serve(words: *mut u64, words_len: usize, bytes: *const u8, bytes_len: usize, out: *mut u8, out_len: usize) -> usize;
    fn mmap(at: *mut c_void, len: usize, protection: c_int, flags: c_int, file: c_int, offset: i64) -> *mut c_void;
    fn mprotect(at: *mut c_void, len: usize, protection: c_int) -> c_int;
    fn munmap(at: *mut c_void, len: usize) -> c_int;
    fn getpagesize() -> c_int;
}

pub(crate) fn open(words: &mut [u64], rules: u32, bound: u32) -> Opened {
    // SAFETY: a slice is passed as its pointer and its length, and is borrowed for the whole call.
    unsafe { session_open(words.as_mut_ptr(), words.len(), rules, bound) }
}

pub(crate) fn serve(words: &mut [u64], bytes: &[u8], out: &mut [u8]) -> usize {
    // SAFETY: as above, for each of the three.
    unsafe { session_serve(words.as_mut_ptr(), words.len(), bytes.as_ptr(), bytes.len(), out.as_mut_ptr(), out.len()) }
}

/// Numbers for which any bits do.
///
/// # Safety
/// Every pattern of bits must be one, and a page must hold them aligned.
pub unsafe trait Number: Copy + Eq {}

// SAFETY: any bits are an unsigned number.
unsafe impl Number for u8 {}
// SAFETY: likewise, and a page begins at a multiple of 8.
unsafe impl Number for u64 {}

/// Pages of numbers, with a page before and one behind that stop the process when they are touched.
#[derive(Debug)]
pub struct Pages<T> {
    mapping: *mut u8,
    page: usize,
    inner: usize,
    numbers: PhantomData<T>,
}

const NO_ACCESS: c_int = 0;
const READ_AND_WRITE: c_int = 3;
const PRIVATE_AND_ANONYMOUS: c_int = 0x22;

impl<T: Number> Pages<T> {
    /// At least so many numbers, all 0.
    pub fn new(least: usize) -> io::Result<Self> {
        // SAFETY: it takes nothing and only answers.
        let page = unsafe { getpagesize() } as usize;
        let inner = (least * size_of::<T>()).next_multiple_of(page);
        // SAFETY: a new mapping anywhere touches nothing that is there.
        let mapping = unsafe { mmap(null_mut(), inner + 2 * page, NO_ACCESS, PRIVATE_AND_ANONYMOUS, -1, 0) };
        if mapping.addr() == usize::MAX {
            return Err(io::Error::last_os_error());
        }
        let pages = Self { mapping: mapping.cast(), page, inner, numbers: PhantomData };
        // SAFETY: the pages between the first and the last are within the mapping.
        if unsafe { mprotect(pages.first().cast(), inner, READ_AND_WRITE) } != 0 {
            return Err(io::Error::last_os_error());
        }
        Ok(pages)
    }

    fn first(&self) -> *mut u8 {
        // SAFETY: the mapping has at least two pages.
        unsafe { self.mapping.add(self.page) }
    }

    pub fn numbers(&self) -> &[T] {
        // SAFETY: the inner pages can be read, as long as this is there; any bits are a number.
        unsafe { from_raw_parts(self.first().cast(), self.inner / size_of::<T>()) }
    }

    pub fn numbers_mut(&mut self) -> &mut [T] {
        // SAFETY: and written, and nobody else has them.
        unsafe { from_raw_parts_mut(self.first().cast(), self.inner / size_of::<T>()) }
    }
}

impl<T> Drop for Pages<T> {
    fn drop(&mut self) {
        // SAFETY: it is just what was mapped, and no slice of it outlives this. That it fails is nothing to who drops it.
        unsafe { munmap(self.mapping.cast(), self.inner + 2 * self.page) };
    }
}

#[cfg(test)]
mod tests {
    use super::*;
    use std::env;
    use std::os::unix::process::ExitStatusExt;
    use std::process::Command;

    /// By which signal this very test program is stopped where it runs the ignored test of that name.
    fn signal_of(test: &str) -> Option<i32> {
        let program = env::current_exe().expect("this program");
        let name = format!("ffi::tests::{test}");
        let output = Command::new(program).args(["--exact", &name, "--ignored", "--test-threads", "1"]).output();
        output.expect("it was started").status.signal()
    }

    fn touch(offset: impl Fn(&Pages<u64>) -> isize) {
        let pages = Pages::<u64>::new(10).expect("memory");
        let offset = offset(&pages);
        // SAFETY: none: it must stop the process.
        let word = unsafe { pages.numbers().as_ptr().wrapping_offset(offset).read_volatile() };
        println!("{word}");
    }

    #[test]
    #[ignore = "it is stopped"]
    fn above() {
        touch(|pages| pages.numbers().len() as isize);
    }

    #[test]
    #[ignore = "it is stopped"]
    fn below() {
        touch(|_| -1);
    }

    #[test]
    #[ignore = "by the next test"]
    fn inside() {
        touch(|pages| pages.numbers().len() as isize - 1);
        touch(|_| 0);
    }

    #[test]
    fn a_word_outside_stops_the_process_and_none_inside() {
        const SIGSEGV: i32 = 11;
        assert_eq!(signal_of("above"), Some(SIGSEGV));
        assert_eq!(signal_of("below"), Some(SIGSEGV));
        assert_eq!(signal_of("inside"), None);
    }

    #[test]
    fn pages_are_as_many_as_asked_for_and_keep_what_is_written() {
        let mut pages = Pages::<u8>::new(5000).expect("memory");
        assert!(pages.numbers().len() >= 5000 && pages.numbers().iter().all(|&byte| byte == 0));
        pages.numbers_mut().fill(7);
        assert!(pages.numbers().iter().all(|&byte| byte == 7));
    }
}
