//! Random bounds, limits, rules and grosses: breakpoints that coincide, touch, or lie at the bound or beyond it.

use crate::books::{Book, MOST_RULES};
use crate::model::LosingRow;
use crate::random::Random;
use crate::rules::{MOST_GROSS, MOST_RATE, MOST_SUM, Rule};
use crate::sorts::Sorted;

/// A bound up to so much: often none, one, the most, or small.
pub fn bound(random: &mut Random, most: u32) -> u32 {
    match random.below(12) {
        0 => 0,
        1 => 1,
        2 => most,
        3 => most - 1,
        4..6 => random.within(2..=30),
        6..8 => random.within(0..=most),
        // Of each size alike.
        _ => {
            let size = random.below(most.ilog2().into());
            random.within(0..=most >> size)
        }
    }
}

pub fn limit(random: &mut Random) -> u32 {
    match random.below(32) {
        0 => 0,
        1 => 1,
        2 => MOST_RULES,
        3..6 => random.within(0..=MOST_RULES),
        6..16 => random.within(9..=20),
        _ => random.within(2..=8),
    }
}

/// Which kinds of rules a book has, and how often. What makes somebody lose is there more often.
const KINDS_OF_BOOKS: [&[u8]; 8] =
    [&[0, 1, 2, 3, 4], &[0, 1, 2, 3, 4], &[0, 3, 4], &[0, 0, 1, 2, 3, 3, 4, 4], &[2, 3], &[4], &[0, 4], &[0, 1]];

#[derive(Clone, Copy, Debug, PartialEq, Eq)]
enum Mood {
    Wild,
    /// Rules are short and sums small, so that somebody who loses is safe further up.
    Gentle,
    /// Borders, rates and sums are as high or as low as they may be, so that amounts are as large as they can be.
    Extreme,
}

/// Where the breakpoints of a book cluster, which rules it has, and how large its rates and sums are.
#[derive(Clone, Debug)]
pub struct Ground {
    bound: u32,
    anchors: Vec<u32>,
    kinds: &'static [u8],
    mood: Mood,
    most_rate: u32,
    most_sum: u32,
}

impl Ground {
    pub fn new(random: &mut Random, bound: u32) -> Self {
        let anchors = (0..random.size(1..=5)).map(|_| random.within(0..=bound)).collect();
        let most_rate = random.one_of(&[MOST_RATE, MOST_RATE, 12_000, 3000, 500]);
        let most_sum = random.one_of(&[3, 20, bound / 64 + 1, bound / 16 + 1, bound / 2 + 1, MOST_SUM]).min(MOST_SUM);
        let mood = match random.below(20) {
            0 => Mood::Extreme,
            1..10 => Mood::Gentle,
            _ => Mood::Wild,
        };
        Self { bound, anchors, kinds: random.one_of(&KINDS_OF_BOOKS), mood, most_rate, most_sum }
    }

    /// At an anchor or near it, at the bound, beyond it, or anywhere.
    fn breakpoint(&self, random: &mut Random) -> u32 {
        let point = match random.below(16) {
            0 => 0,
            1 => self.bound,
            2 => self.bound + 1,
            3 => self.bound.saturating_sub(1),
            4 => self.bound.saturating_mul(2).saturating_add(random.within(0..=9)),
            5 => MOST_GROSS,
            6..9 => random.within(0..=self.bound),
            9..12 => random.one_of(&self.anchors),
            _ => (random.one_of(&self.anchors) + random.within(0..=4)).saturating_sub(2),
        };
        point.min(MOST_GROSS)
    }

    /// Two breakpoints, the first below the second.
    fn borders(&self, random: &mut Random) -> (u32, u32) {
        let one = self.breakpoint(random);
        let other = match self.mood {
            Mood::Wild => self.breakpoint(random),
            Mood::Gentle => (one + random.within(0..=self.bound / 8)).min(MOST_GROSS),
            Mood::Extreme => return (random.within(0..=1), MOST_GROSS - random.within(0..=1)),
        };
        match (one.min(other), one.max(other)) {
            (from, to) if from < to => (from, to),
            (MOST_GROSS, _) => (MOST_GROSS - 1, MOST_GROSS),
            (from, _) => (from, from + 1),
        }
    }

    fn rate(&self, random: &mut Random) -> u32 {
        match random.below(8) {
            _ if self.mood == Mood::Extreme => random.one_of(&[0, MOST_RATE - 1, MOST_RATE, MOST_RATE]),
            0 => random.one_of(&[0, 1, 9999, 10_001, MOST_RATE]),
            1 => 10_000,
            2 => random.within(0..=9),
            3 => 1000 * random.within(0..=20),
            _ => random.within(0..=self.most_rate),
        }
    }

    fn sum(&self, random: &mut Random) -> u32 {
        match random.below(8) {
            _ if self.mood == Mood::Extreme => MOST_SUM - random.within(0..=1),
            0 => 0,
            1 => random.within(1..=5),
            2 if self.mood == Mood::Wild => random.one_of(&[1, MOST_SUM - 1, MOST_SUM]),
            _ if self.mood == Mood::Gentle => random.within(0..=self.most_sum.min(self.bound / 16 + 1)),
            _ => random.within(0..=self.most_sum),
        }
    }

    /// The sum of a fade that ends at a breakpoint or near it, not always on a whole step.
    fn fading_sum(&self, random: &mut Random, from: u32, rate: u32) -> u32 {
        if random.once_in(2) {
            return self.sum(random);
        }
        let units = u64::from(self.breakpoint(random).saturating_sub(from));
        let sum = units * u64::from(rate) / 10_000 + random.below(2);
        sum.min(MOST_SUM.into()) as u32
    }

    /// A rule in range.
    pub fn rule(&self, random: &mut Random) -> Rule {
        let (from, to) = self.borders(random);
        match random.one_of(self.kinds) {
            0 => Rule::Take { from, to, rate: self.rate(random) },
            1 => Rule::Give { from, to, rate: self.rate(random) },
            2 => Rule::TakeSum { from, to, sum: self.sum(random) },
            3 => Rule::GiveSum { from, to, sum: self.sum(random) },
            _ => {
                let (from, rate) = (self.breakpoint(random), self.rate(random));
                Rule::Fade { from, rate, sum: self.fading_sum(random, from, rate) }
            }
        }
    }

    /// A rule that is out of range by one of its numbers.
    pub fn bad_rule(&self, random: &mut Random) -> Rule {
        let rule = self.rule(random);
        let kind = rule.kind();
        let mut numbers = rule.numbers();
        let too_many = |random: &mut Random, most: u32| random.one_of(&[most + 1, most + 1, u32::MAX, 1 << 31]);
        let most_last = if kind < 2 { MOST_RATE } else { MOST_SUM };
        match (random.below(5), kind) {
            (0, _) => numbers[2] = too_many(random, most_last),
            (1 | 2, 4) => numbers[1] = too_many(random, MOST_RATE),
            (_, 4) => numbers[0] = too_many(random, MOST_GROSS),
            (1, _) => numbers[1] = too_many(random, MOST_GROSS),
            (2, _) => numbers[1] = numbers[0],
            (3, _) => numbers.swap(0, 1),
            _ => numbers[0] = too_many(random, MOST_GROSS),
        }
        Rule::of_kind(kind, numbers).unwrap_or(rule)
    }
}

/// One past the last unit at which something may be left of a fade; the other borders are among the numbers of a rule.
fn end_of_fade(from: u32, rate: u32, sum: u32) -> u32 {
    let units = (u64::from(sum) * 10_000).checked_div(rate.into()).unwrap_or_default();
    (u64::from(from) + units + 1).min(u32::MAX.into()) as u32
}

/// A border of a rule, or where a fade ends.
fn point_of(random: &mut Random, rule: Rule) -> u32 {
    match rule {
        Rule::Fade { from, rate, sum } if random.once_in(2) => end_of_fade(from, rate, sum),
        Rule::Fade { from, .. } => from,
        _ => rule.numbers()[random.size(0..=1)],
    }
}

/// The first or the last gross of a losing row, one in it, or where its first is safe; 0 where nobody loses.
fn point_of_loss(random: &mut Random, book: &Book) -> u32 {
    let sorted = Sorted::new(&book.rules, book.bound);
    let row = sorted.row(random.within(0..=book.bound)).or_else(|| sorted.row(0));
    row.map_or(0, |LosingRow { first, last }| match random.below(4) {
        0 => first,
        1 => last,
        2 => random.within(first..=last),
        _ => sorted.safe(first).unwrap_or(book.bound),
    })
}

/// A gross at a breakpoint of the rules, at the end of a losing row, near one of these, at an end, or anywhere.
pub fn gross(random: &mut Random, book: &Book) -> u32 {
    let point = match (random.below(12), book.rules.len()) {
        (0, _) => 0,
        (1, _) => book.bound,
        (2 | 3, _) | (_, 0) => return random.within(0..=book.bound),
        (4..7, _) => point_of_loss(random, book),
        _ => {
            let rule = random.one_of(&book.rules);
            point_of(random, rule)
        }
    };
    let near = if random.once_in(2) { point } else { point.saturating_add(random.within(0..=4)).saturating_sub(2) };
    near.min(book.bound)
}

#[cfg(test)]
mod tests {
    use super::*;

    #[test]
    fn bad_rules_are_out_of_range_and_good_ones_in_it() {
        let mut random = Random::new(3);
        for _ in 0..2000 {
            let bound = bound(&mut random, MOST_GROSS);
            let ground = Ground::new(&mut random, bound);
            assert!(ground.rule(&mut random).in_range());
            assert!(!ground.bad_rule(&mut random).in_range());
        }
    }
}
