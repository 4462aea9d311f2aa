//! The second model: all breakpoints sorted, a sweep up for the segments, and one down for the lowest net from each on. Its time
//! goes by the rules and not by the bound.

use crate::model::{LosingRow, Model};
use crate::rules::Rule;

/// Ten-thousandths in a unit.
const UNIT: i64 = 10_000;

/// What a rule gives, less what it takes; a rule does only one of the two.
fn flow(rule: Rule, gross: i64) -> i64 {
    let above = |from: u32, to: u32| (gross.min(to.into()) - i64::from(from)).max(0);
    let holds = |from: u32, to: u32| i64::from(i64::from(from) <= gross && gross < i64::from(to));
    match rule {
        Rule::Take { from, to, rate } => -i64::from(rate) * above(from, to),
        Rule::Give { from, to, rate } => i64::from(rate) * above(from, to),
        Rule::TakeSum { from, to, sum } => -UNIT * i64::from(sum) * holds(from, to),
        Rule::GiveSum { from, to, sum } => UNIT * i64::from(sum) * holds(from, to),
        Rule::Fade { from, rate, sum } => (UNIT * i64::from(sum) - i64::from(rate) * above(from, u32::MAX)).max(0),
    }
}

/// What is left of a gross, in ten-thousandths. With at most 64 rules in range no sum wraps.
pub fn net(rules: &[Rule], gross: u32) -> i64 {
    let gross = i64::from(gross);
    UNIT * gross + rules.iter().map(|&rule| flow(rule, gross)).sum::<i64>()
}

/// What comes in, and what goes out.
pub fn flows(rules: &[Rule], gross: u32) -> (u64, u64) {
    let gross = i64::from(gross);
    let start = (10_000 * gross.unsigned_abs(), 0);
    rules.iter().fold(start, |(inflow, outflow), &rule| match flow(rule, gross) {
        given @ 0.. => (inflow + given.unsigned_abs(), outflow),
        taken => (inflow, outflow + taken.unsigned_abs()),
    })
}

/// At a breakpoint: by how much net jumps off the line before it, and by how much more it rises with each unit from there on.
#[derive(Clone, Copy, Debug)]
struct Change {
    at: i64,
    jump: i64,
    turn: i64,
}

impl Change {
    fn jump(at: u32, jump: i64) -> Self {
        Self { at: at.into(), jump, turn: 0 }
    }

    fn turn(at: u32, turn: i64) -> Self {
        Self { at: at.into(), jump: 0, turn }
    }
}

/// Where a fade begins, and where nothing is left of it. The line is left at the first unit at which it is at 0 or below, by as
/// much as it is below there, since the last unit may have had less than a rate left.
fn fade_changes(from: u32, rate: i64, sum: i64) -> [Change; 2] {
    let start = Change::turn(from, -rate);
    let units = if rate == 0 { 0 } else { (sum + rate - 1) / rate };
    let below = if rate == 0 { 0 } else { units * rate - sum };
    [start, Change { at: start.at + units, jump: below, turn: rate }]
}

fn changes(rule: Rule) -> [Change; 2] {
    match rule {
        Rule::Take { from, to, rate } => [Change::turn(from, -i64::from(rate)), Change::turn(to, rate.into())],
        Rule::Give { from, to, rate } => [Change::turn(from, rate.into()), Change::turn(to, -i64::from(rate))],
        Rule::TakeSum { from, to, sum } => [Change::jump(from, -UNIT * i64::from(sum)), Change::jump(to, UNIT * i64::from(sum))],
        Rule::GiveSum { from, to, sum } => [Change::jump(from, UNIT * i64::from(sum)), Change::jump(to, -UNIT * i64::from(sum))],
        Rule::Fade { from, rate, sum } => fade_changes(from, rate.into(), UNIT * i64::from(sum)),
    }
}

/// What a rule gives to who earns nothing, before any breakpoint: a fade its whole sum.
fn at_nothing(rule: Rule) -> i64 {
    match rule {
        Rule::Fade { sum, .. } => UNIT * i64::from(sum),
        _ => 0,
    }
}

/// A stretch of grosses on which net goes in a straight line.
#[derive(Clone, Copy, Debug, PartialEq, Eq)]
pub struct Segment {
    pub first: u32,
    pub last: u32,
    /// Net at the first.
    pub net: i64,
    pub slope: i64,
    /// The least net of all grosses from the first on, up to the bound.
    pub lowest: i64,
}

impl Segment {
    pub fn net_at(&self, gross: u32) -> i64 {
        self.net + self.slope * i64::from(gross - self.first)
    }

    /// Its grosses that lose, where `beyond` is the least net beyond it: a run that ends with it, or one before its last.
    fn losing(&self, beyond: i64) -> Option<LosingRow> {
        let Self { first, last, .. } = *self;
        if self.net_at(last) > beyond {
            let enough = if self.slope > 0 && self.net <= beyond { (beyond - self.net) / self.slope + 1 } else { 0 };
            return Some(LosingRow { first: first + enough as u32, last });
        }
        (self.slope < 0 && first < last).then(|| LosingRow { first, last: last - 1 })
    }

    /// The last of its grosses of which less than `net` is left.
    fn last_below(&self, net: i64) -> Option<u32> {
        if self.net_at(self.last) < net {
            return Some(self.last);
        }
        (self.net < net).then(|| self.first + ((net - self.net - 1) / self.slope) as u32)
    }
}

/// The segments of a book, from the first to the last.
#[derive(Clone, Debug, Default)]
pub struct Sorted {
    bound: u32,
    changes: Vec<Change>,
    segments: Vec<Segment>,
}

impl Sorted {
    /// Of at most 64 rules in range, and a bound of at most 1,000,000,000.
    pub fn new(rules: &[Rule], bound: u32) -> Self {
        let mut sorted = Self::default();
        sorted.refill(rules, bound);
        sorted
    }

    /// The same in the memory that is there.
    pub fn refill(&mut self, rules: &[Rule], bound: u32) {
        self.bound = bound;
        self.changes.clear();
        let all = rules.iter().flat_map(|&rule| changes(rule));
        self.changes.extend(all.filter(|change| change.at <= bound.into()));
        self.changes.sort_unstable_by_key(|change| change.at);
        self.sweep_up(rules.iter().map(|&rule| at_nothing(rule)).sum());
        self.sweep_down();
    }

    fn sweep_up(&mut self, net: i64) {
        let mut line = Segment { first: 0, last: self.bound, net, slope: UNIT, lowest: i64::MAX };
        self.segments.clear();
        for change in &self.changes {
            let at = change.at as u32;
            if at > line.first {
                self.segments.push(Segment { last: at - 1, ..line });
                line.net = line.net_at(at);
                line.first = at;
            }
            line.net += change.jump;
            line.slope += change.turn;
        }
        self.segments.push(line);
    }

    fn sweep_down(&mut self) {
        let mut lowest = i64::MAX;
        for segment in self.segments.iter_mut().rev() {
            lowest = lowest.min(segment.net).min(segment.net_at(segment.last));
            segment.lowest = lowest;
        }
    }

    pub fn segments(&self) -> &[Segment] {
        &self.segments
    }

    /// The place of the segment that a gross lies in.
    fn place_of(&self, gross: u32) -> usize {
        self.segments.partition_point(|segment| segment.last < gross)
    }

    /// The losing parts of the segments from a place on.
    fn parts(&self, place: usize) -> impl Iterator<Item = LosingRow> {
        let from = self.segments.get(place..).unwrap_or_default();
        let beyond = from.iter().skip(1).map(|next| next.lowest).chain([i64::MAX]);
        from.iter().zip(beyond).filter_map(|(segment, beyond)| segment.losing(beyond))
    }

    /// The first losing row from a gross on, cut there. Neighbouring parts are one row.
    pub fn row(&self, from: u32) -> Option<LosingRow> {
        let mut parts = self.parts(self.place_of(from)).skip_while(|part| part.last < from);
        let part = parts.next()?;
        let first = part.first.max(from);
        let last = parts.try_fold(part.last, |last, next| if next.first == last + 1 { Ok(next.last) } else { Err(last) });
        Some(LosingRow { first, last: last.unwrap_or_else(|last| last) })
    }

    /// The smallest larger gross from which on, up to the bound, at least as much is left.
    pub fn safe(&self, gross: u32) -> Option<u32> {
        let net = self.segments.get(self.place_of(gross))?.net_at(gross);
        let low = self.segments.partition_point(|segment| segment.lowest < net);
        let last_low = self.segments[..low].last().and_then(|segment| segment.last_below(net));
        let from = last_low.map_or(gross, |last| last.max(gross)) + 1;
        (from <= self.bound).then_some(from)
    }
}

/// The segments with the rules that they are of.
#[derive(Clone, Debug)]
pub struct SortedBook {
    rules: Vec<Rule>,
    sorted: Sorted,
}

impl Model for SortedBook {
    fn of(rules: &[Rule], bound: u32) -> Self {
        Self { rules: rules.to_vec(), sorted: Sorted::new(rules, bound) }
    }

    fn left(&self, gross: u32) -> (u64, u64) {
        flows(&self.rules, gross)
    }

    fn row(&self, from: u32) -> Option<LosingRow> {
        self.sorted.row(from)
    }

    fn safe(&self, gross: u32) -> Option<u32> {
        self.sorted.safe(gross)
    }

    fn rows(&self) -> Vec<LosingRow> {
        let mut rows: Vec<LosingRow> = Vec::new();
        for part in self.sorted.parts(0) {
            match rows.last_mut() {
                Some(row) if row.last + 1 == part.first => row.last = part.last,
                _ => rows.push(part),
            }
        }
        rows
    }
}

#[cfg(test)]
mod tests {
    use super::*;

    #[test]
    fn segments_up_to_a_billion() {
        let rules = [
            Rule::Take { from: 0, to: 1_000_000_000, rate: 10_001 },
            Rule::GiveSum { from: 999_999_000, to: 1_000_000_000, sum: 100_000_000 },
        ];
        let sorted = Sorted::new(&rules, 1_000_000_000);
        let firsts: Vec<u32> = sorted.segments().iter().map(|segment| segment.first).collect();
        assert_eq!(firsts, [0, 999_999_000, 1_000_000_000]);
        assert_eq!(sorted.row(0), Some(LosingRow { first: 0, last: 999_999_999 }));
        assert_eq!(sorted.safe(999_999_999), None);
        assert_eq!(net(&rules, 1_000_000_000), -1_000_000_000);
    }

    #[test]
    fn memory_that_is_used_again_holds_nothing_of_before() {
        let mut sorted = Sorted::new(&[Rule::Fade { from: 3, rate: 7, sum: 9 }], 1000);
        sorted.refill(&[], 5);
        assert_eq!(sorted.segments(), Sorted::new(&[], 5).segments());
        assert_eq!(sorted.segments().len(), 1);
    }

    #[test]
    fn a_line_and_the_sum_of_the_rules_are_the_same_net() {
        let rules = [
            Rule::Fade { from: 2, rate: 7000, sum: 5 },
            Rule::Give { from: 4, to: 6, rate: 1 },
            Rule::TakeSum { from: 6, to: 8, sum: 3 },
        ];
        let sorted = Sorted::new(&rules, 30);
        for segment in sorted.segments() {
            assert!((segment.first..=segment.last).all(|gross| segment.net_at(gross) == net(&rules, gross)), "{segment:?}");
        }
    }
}
