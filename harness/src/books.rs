//! A book as a value, the words of its image, and the book that any words hold.

use crate::rules::{MOST_GROSS, Rule};

/// "book" in ASCII.
pub const TAG: u64 = 1_651_470_187;
pub const MOST_RULES: u32 = 64;
/// How many words come before the first slot, and how many a slot has.
pub const FRONT: usize = 4;
pub const SLOT: usize = 4;

/// How many words a limit of so many rules asks for.
pub fn asked(limit: u32) -> usize {
    32 * limit as usize + 64
}

#[derive(Clone, Debug, PartialEq, Eq)]
pub struct Book {
    pub limit: u32,
    pub bound: u32,
    pub rules: Vec<Rule>,
}

/// The rule that a slot's words are, if it is one in range.
fn rule_of(slot: &[u64]) -> Option<Rule> {
    let numbers: Vec<u32> = slot.iter().map_while(|&word| word.try_into().ok()).collect();
    let &[kind, first, second, last] = numbers.as_slice() else {
        return None;
    };
    Rule::of_kind(kind.try_into().ok()?, [first, second, last]).filter(|rule| rule.in_range())
}

impl Book {
    pub fn new(limit: u32, bound: u32) -> Self {
        Self { limit, bound, rules: Vec::new() }
    }

    pub fn is_full(&self) -> bool {
        self.rules.len() >= self.limit as usize
    }

    /// Front and slots, and zeros up to the last word that is asked for.
    pub fn image(&self) -> Vec<u64> {
        let mut words = Vec::with_capacity(asked(self.limit));
        words.extend([TAG, self.limit.into(), self.bound.into(), self.rules.len() as u64]);
        for rule in &self.rules {
            words.push(rule.kind().into());
            words.extend(rule.numbers().map(u64::from));
        }
        words.resize(asked(self.limit), 0);
        words
    }

    /// The book that the words hold, if they hold one; nothing is asked of unused slots and scratch.
    pub fn read(words: &[u64]) -> Option<Self> {
        let &[tag, limit, bound, count, ..] = words else {
            return None;
        };
        if tag != TAG || limit > MOST_RULES.into() || bound > MOST_GROSS.into() || count > limit {
            return None;
        }
        let (limit, bound) = (limit as u32, bound as u32);
        if words.len() < asked(limit) {
            return None;
        }
        let slots = words[FRONT..].chunks_exact(SLOT).take(count as usize);
        let rules = slots.map(rule_of).collect::<Option<_>>()?;
        Some(Self { limit, bound, rules })
    }
}

#[cfg(test)]
mod tests {
    use super::*;

    fn book() -> Book {
        let rules = vec![Rule::Take { from: 1, to: 5, rate: 20_000 }, Rule::Fade { from: 9, rate: 7, sum: 100_000_000 }];
        Book { limit: 3, bound: 77, rules }
    }

    #[test]
    fn an_image_is_read_back_whatever_lies_in_unused_words() {
        let mut words = book().image();
        assert_eq!(words[..12], [TAG, 3, 77, 2, 0, 1, 5, 20_000, 4, 9, 7, 100_000_000]);
        assert_eq!((words.len(), words[12..].iter().sum::<u64>()), (160, 0));
        words[12..].fill(u64::MAX);
        words.push(1);
        assert_eq!(Book::read(&words), Some(book()));
    }

    #[test]
    fn words_that_hold_no_book() {
        let with = |at: usize, word: u64| {
            let mut words = book().image();
            words[at] = word;
            Book::read(&words)
        };
        for (at, word) in
            [(0, TAG + 1), (1, 65), (1, 1), (2, 1_000_000_001), (3, 4), (4, 5), (4, 256), (6, 1), (7, 20_001), (8, 1 << 32)]
        {
            assert_eq!(with(at, word), None, "word {at} is {word}");
        }
        assert_eq!(Book::read(&book().image()[..159]), None);
        assert_eq!(Book::read(&[]), None);
    }
}
