//! Lent memory, at one end or the other of pages between two that can't be touched, and what it must hold.

use crate::ffi::{Number, Pages};
use crate::random::Random;
use std::io;
use std::ops::Range;

/// At which end of its pages memory is lent: one past it the process is stopped.
#[derive(Clone, Copy, Debug, PartialEq, Eq)]
pub enum Side {
    Lower,
    Upper,
}

/// A number that isn't as it must be. Its place counts from the first that is lent, so one before is -1.
#[derive(Clone, Copy, Debug, PartialEq, Eq)]
pub struct Changed<T> {
    pub place: isize,
    pub is: T,
    pub must: T,
}

/// Numbers that are lent, those around them, and a copy that says what all of them must be.
#[derive(Debug)]
pub struct Lent<T> {
    pages: Pages<T>,
    must: Vec<T>,
    lent: Range<usize>,
}

impl<T: Number> Lent<T> {
    /// Room for at least so many.
    pub fn new(least: usize, mut any: impl FnMut() -> T) -> io::Result<Self> {
        let pages = Pages::new(least)?;
        let must = pages.numbers().iter().map(|_| any()).collect();
        let mut lent = Self { pages, must, lent: 0..0 };
        lent.restore();
        Ok(lent)
    }

    /// Lends so many at that end.
    pub fn lend(&mut self, count: usize, side: Side) {
        let all = self.must.len();
        self.lent = match side {
            Side::Lower => 0..count,
            Side::Upper => all - count..all,
        };
    }

    /// All are again as they must be.
    pub fn restore(&mut self) {
        self.pages.numbers_mut().copy_from_slice(&self.must);
    }

    /// What is lent holds this.
    pub fn put(&mut self, numbers: impl IntoIterator<Item = T>) {
        let lent = &mut self.must[self.lent.clone()];
        lent.iter_mut().zip(numbers).for_each(|(number, new)| *number = new);
        self.pages.numbers_mut()[self.lent.clone()].copy_from_slice(lent);
    }

    pub fn lent(&self) -> &[T] {
        &self.pages.numbers()[self.lent.clone()]
    }

    pub fn lent_mut(&mut self) -> &mut [T] {
        &mut self.pages.numbers_mut()[self.lent.clone()]
    }

    /// From now on the first that are lent must be these.
    pub fn expect(&mut self, numbers: &[T]) {
        self.must[self.lent.clone()][..numbers.len()].copy_from_slice(numbers);
    }

    fn changed_in(&self, range: Range<usize>) -> Option<Changed<T>> {
        let (numbers, must) = (&self.pages.numbers()[range.clone()], &self.must[range.clone()]);
        if numbers == must {
            return None;
        }
        let at = numbers.iter().zip(must).position(|(is, must)| is != must)?;
        let place = (range.start + at) as isize - self.lent.start as isize;
        Some(Changed { place, is: numbers[at], must: must[at] })
    }

    /// The first that isn't as it must be, of all that are lent and some on both sides.
    pub fn changed(&self) -> Option<Changed<T>> {
        let Range { start, end } = self.lent;
        self.changed_in(start.saturating_sub(BESIDE)..(end + BESIDE).min(self.must.len()))
    }

    /// The first of all that isn't as it must be; all take longer.
    pub fn changed_anywhere(&self) -> Option<Changed<T>> {
        self.changed_in(0..self.must.len())
    }
}

/// So many on each side of what is lent are looked at after each call.
const BESIDE: usize = 32;

/// The memory of one thread: words for a book, bytes for a call, and room for an answer.
#[derive(Debug)]
pub struct Memory {
    pub words: Lent<u64>,
    pub bytes: Lent<u8>,
    pub out: Lent<u8>,
}

/// No more words than these are lent, and no more bytes.
pub const MOST_WORDS: usize = 2500;
pub const MOST_BYTES: usize = 200;

impl Memory {
    pub fn new() -> io::Result<Self> {
        let mut random = Random::new(1);
        Ok(Self {
            words: Lent::new(MOST_WORDS, || random.word())?,
            bytes: Lent::new(MOST_BYTES, || 0x5a)?,
            out: Lent::new(MOST_BYTES, || 0xa5)?,
        })
    }

    /// All is again as it must be: a faulty desk may have changed it.
    pub fn restore(&mut self) {
        self.words.restore();
        self.out.restore();
    }
}

#[cfg(test)]
mod tests {
    use super::*;

    #[test]
    fn a_change_is_seen_wherever_it_is() {
        let mut memory = Memory::new().expect("memory");
        for side in [Side::Lower, Side::Upper] {
            let words = &mut memory.words;
            words.lend(10, side);
            words.put(0..10);
            assert_eq!((words.changed(), words.lent()), (None, &[0, 1, 2, 3, 4, 5, 6, 7, 8, 9][..]));
            words.lent_mut()[3] = 77;
            assert_eq!(words.changed(), Some(Changed { place: 3, is: 77, must: 3 }));
            words.expect(&[0, 1, 2, 77]);
            assert_eq!(words.changed(), None);
        }
    }

    #[test]
    fn what_is_lent_ends_or_begins_at_a_guard() {
        let mut memory = Memory::new().expect("memory");
        let ends = |words: &Lent<u64>| (words.pages.numbers().as_ptr_range(), words.lent().as_ptr_range());
        for count in [0, 1, MOST_WORDS] {
            memory.words.lend(count, Side::Lower);
            let (all, lent) = ends(&memory.words);
            assert_eq!((lent.start, memory.words.lent().len()), (all.start, count));
            memory.words.lend(count, Side::Upper);
            let (all, lent) = ends(&memory.words);
            assert_eq!((lent.end, memory.words.lent().len()), (all.end, count));
        }
    }

    #[test]
    fn a_change_far_off_is_seen_in_the_end_and_can_be_undone() {
        let mut memory = Memory::new().expect("memory");
        memory.words.lend(MOST_WORDS, Side::Lower);
        memory.words.lent_mut()[900] ^= 1;
        memory.words.lend(5, Side::Lower);
        assert_eq!(memory.words.changed(), None);
        assert_eq!(memory.words.changed_anywhere().map(|changed| changed.place), Some(900));
        memory.words.lend(MOST_WORDS, Side::Upper);
        memory.restore();
        assert_eq!((memory.words.changed(), memory.words.changed_anywhere()), (None, None));
    }
}
