//! Random memories: words of any kind, images of books that were damaged or not, and calls to serve on them.

use crate::answers::LENGTH;
use crate::books::{Book, FRONT, MOST_RULES, SLOT, TAG, asked};
use crate::calls::Call;
use crate::cases::Asked;
use crate::ground::{Ground, bound, gross};
use crate::lists::{garbled, side};
use crate::memory::{MOST_WORDS, Side};
use crate::random::Random;
use crate::rules::{MOST_GROSS, MOST_RATE, MOST_SUM};

/// What lies in lent memory.
#[derive(Clone, Debug, PartialEq, Eq)]
pub struct Held {
    pub words: Vec<u64>,
    pub side: Side,
}

/// A limit, of few rules mostly.
fn few(random: &mut Random) -> u32 {
    match random.below(32) {
        0 => random.within(0..=MOST_RULES),
        1 => MOST_RULES,
        2..6 => 0,
        _ => random.within(1..=6),
    }
}

fn book(random: &mut Random) -> Book {
    let (limit, bound) = (few(random), bound(random, MOST_GROSS));
    let ground = Ground::new(random, bound);
    let count = if random.once_in(4) { limit } else { random.within(0..=limit) };
    let rules = (0..count).map(|_| ground.rule(random)).collect();
    Book { limit, bound, rules }
}

/// A number beside one that is there, one with another bit, one of those that are an end of something, or any.
fn another(random: &mut Random, word: u64) -> u64 {
    let ends = [0, 1, 5, 64, 65, 256, MOST_RATE.into(), MOST_SUM.into(), MOST_GROSS.into(), 1 << 32, TAG, u64::MAX];
    match random.below(5) {
        0 => word.wrapping_add(1),
        1 => word.wrapping_sub(1),
        2 => word ^ 1 << random.below(64),
        3 => random.one_of(&ends).wrapping_add(random.below(2)),
        _ => random.word(),
    }
}

fn damage(random: &mut Random, words: &mut [u64], used: usize) {
    for _ in 0..random.size(1..=3) {
        let at = random.size(0..=used.min(words.len()) - 1);
        words[at] = another(random, words[at]);
    }
}

/// Slots that may hold a rule and may not.
fn any_slot(random: &mut Random) -> [u64; SLOT] {
    let most = random.one_of(&[9, 20_000, 1_000_000_000, u64::MAX]);
    [random.below(6), random.below(most), random.below(most), random.below(most)]
}

/// A right front, or nearly, before slots of any numbers.
fn only_a_front(random: &mut Random) -> Vec<u64> {
    let limit = few(random);
    let count = random.below(u64::from(limit) + 2).min(random.below(4));
    let mut words = vec![TAG, limit.into(), bound(random, MOST_GROSS).into(), count];
    words.extend((0..limit).flat_map(|_| any_slot(random)));
    words.resize(asked(limit), 0);
    words
}

/// The image of a book; what it doesn't use may hold anything, and words may lie behind it.
fn image(random: &mut Random) -> (Vec<u64>, usize) {
    let book = book(random);
    let used = FRONT + SLOT * book.rules.len();
    let mut words = book.image();
    if random.once_in(2) {
        words[used..].fill_with(|| random.word());
    }
    if random.once_in(3) {
        words.extend((0..random.size(1..=20)).map(|_| random.word()));
    }
    (words, used)
}

fn words(random: &mut Random) -> Vec<u64> {
    match random.below(16) {
        0 | 1 => (0..random.size(0..=90)).map(|_| random.word()).collect(),
        2 => (0..random.size(0..=MOST_WORDS / 8)).map(|_| random.word()).collect(),
        3 | 4 => only_a_front(random),
        5..9 => {
            let (mut words, used) = image(random);
            damage(random, &mut words, used);
            words
        }
        9 => {
            let (mut words, _) = image(random);
            let short = if random.once_in(2) { random.size(1..=21) } else { random.size(0..=words.len()) };
            words.truncate(words.len().saturating_sub(short));
            words
        }
        _ => image(random).0,
    }
}

pub fn held(random: &mut Random) -> Held {
    Held { words: words(random), side: side(random) }
}

fn real_call(random: &mut Random, held: &Held) -> Call {
    let book = Book::read(&held.words).unwrap_or(Book::new(0, 1000));
    let gross = match random.below(8) {
        0 => book.bound.saturating_add(random.within(1..=3)),
        _ => gross(random, &book),
    };
    match random.below(8) {
        0 | 1 => Call::Lay(Ground::new(random, book.bound).rule(random)),
        2 => Call::Lift(random.within(0..=book.rules.len() as u32)),
        3 => Call::Left(gross),
        4 | 5 => Call::Row(gross),
        _ => Call::Safe(gross),
    }
}

/// Bytes to serve: a call, one with another byte, a garbled one, or any bytes.
pub fn asked_of(random: &mut Random, held: &Held) -> Asked {
    let call = real_call(random, held);
    let bytes = match random.below(16) {
        0..3 => garbled(random, call),
        3 => (0..random.size(0..=40)).map(|_| random.word() as u8).collect(),
        4 | 5 => {
            let mut bytes = call.to_bytes();
            let at = random.size(0..=bytes.len() - 1);
            bytes[at] = random.word() as u8;
            bytes
        }
        _ => call.to_bytes(),
    };
    let room = if random.once_in(16) { random.size(0..=40) } else { LENGTH };
    Asked { bytes, room }
}

/// An opening: a limit, a bound, and memory of about as much as is asked for, in which a book may lie.
pub fn opening(random: &mut Random) -> (u32, u32, Held) {
    let limit = match random.below(4) {
        0 => random.one_of(&[MOST_RULES, MOST_RULES + 1, MOST_RULES + 2, 1 << 16, u32::MAX]),
        _ => random.within(0..=MOST_RULES + 4),
    };
    let bound = match random.below(4) {
        0 => random.within(0..=MOST_GROSS),
        _ => random.one_of(&[0, 1, MOST_GROSS - 1, MOST_GROSS, MOST_GROSS + 1, MOST_GROSS + 2, u32::MAX]),
    };
    let count = match random.below(4) {
        0 => random.size(0..=MOST_WORDS),
        1 => random.size(0..=70),
        _ => (asked(limit) + random.size(0..=2)).saturating_sub(1),
    };
    let mut held = held(random);
    held.words.resize_with(count.min(MOST_WORDS), || random.word());
    (limit, bound, held)
}

#[cfg(test)]
mod tests {
    use super::*;

    #[test]
    fn some_memories_hold_a_book_and_some_do_not() {
        let mut random = Random::new(9);
        let held: Vec<_> = (0..4000).map(|_| held(&mut random)).collect();
        let books: Vec<_> = held.iter().filter_map(|held| Book::read(&held.words)).collect();
        assert!((1000..3000).contains(&books.len()), "{}", books.len());
        assert!(books.iter().any(|book| book.rules.len() == 64) && books.iter().any(|book| book.limit == 0));
        assert!(held.iter().any(|held| held.words.is_empty()));
        let is_short =
            |held: &Held| matches!(held.words[..], [TAG, limit @ 0..=64, ..] if held.words.len() + 1 == asked(limit as u32));
        assert!(held.iter().any(is_short));
        assert!(held.iter().all(|held| held.words.len() <= MOST_WORDS));
    }

    #[test]
    fn some_openings_are_refused_for_each_reason() {
        let mut random = Random::new(9);
        let openings: Vec<_> = (0..1000).map(|_| opening(&mut random)).collect();
        for place in 0..3 {
            let refused = crate::session::Opened { number: 3, place };
            let is = |(limit, bound, held): &(u32, u32, Held)| crate::written::opening(held.words.len(), *limit, *bound) == refused;
            assert!(openings.iter().any(is), "{place}");
        }
    }
}
