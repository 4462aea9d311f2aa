//! Random lists of calls.

use crate::answers::LENGTH;
use crate::books::{Book, asked};
use crate::calls::Call;
use crate::cases::{Asked, Case, Loan, Step};
use crate::ground::{Ground, bound, gross, limit};
use crate::memory::Side;
use crate::random::Random;

pub fn side(random: &mut Random) -> Side {
    random.one_of(&[Side::Lower, Side::Upper])
}

pub fn loan(random: &mut Random, limit: u32) -> Loan {
    let more = match random.below(4) {
        0 | 1 => 0,
        2 => random.size(1..=3),
        _ => random.size(4..=200),
    };
    let fill = (!random.once_in(4)).then(|| random.below(1_000_000));
    Loan { words: asked(limit) + more, side: side(random), fill }
}

/// Bytes that may be no call: too few, too many, of a kind that there is not, or any.
pub fn garbled(random: &mut Random, call: Call) -> Vec<u8> {
    let mut bytes = call.to_bytes();
    match random.below(8) {
        0 => bytes.clear(),
        1 => bytes[0] = random.within(5..=255) as u8,
        2 => {
            bytes = vec![0; random.size(2..=15)];
            bytes[1] = random.within(5..=255) as u8;
        }
        3 | 4 => bytes.truncate(random.size(0..=bytes.len() - 1)),
        5 => bytes.extend((0..random.size(1..=10)).map(|_| random.word() as u8)),
        _ => bytes = (0..random.size(0..=20)).map(|_| random.word() as u8 & random.one_of(&[7, 255])).collect(),
    }
    bytes
}

/// A list of calls in the making, with the book as it is after them.
struct List<'a> {
    random: &'a mut Random,
    ground: Ground,
    book: Book,
    steps: Vec<Step>,
    /// What may be spent on steps that ask of every gross.
    effort: u64,
}

impl List<'_> {
    fn push(&mut self, call: Call) {
        self.steps.push(Step::Serve(Asked::call(call)));
    }

    fn lay(&mut self) {
        let rule = self.ground.rule(self.random);
        self.push(Call::Lay(rule));
        if !self.book.is_full() {
            self.book.rules.push(rule);
        }
    }

    fn lift(&mut self) {
        let Some(last) = self.book.rules.len().checked_sub(1) else {
            return self.push(Call::Lift(0));
        };
        let number = if self.random.once_in(4) { last } else { self.random.size(0..=last) };
        self.push(Call::Lift(number as u32));
        self.book.rules.remove(number);
    }

    fn question(&mut self) {
        let gross = gross(self.random, &self.book);
        let call = self.random.one_of(&[Call::Left, Call::Row, Call::Safe])(gross);
        self.push(call);
    }

    /// A call that is turned away, or may be.
    fn refused(&mut self) {
        let bound = self.book.bound;
        let above = self.random.one_of(&[bound + 1, bound + 2, bound + 1000, u32::MAX]);
        let count = self.book.rules.len() as u32;
        let call = match self.random.below(6) {
            0 | 1 => Call::Lay(self.ground.bad_rule(self.random)),
            2 => Call::Lift(self.random.one_of(&[count, count + 1, self.book.limit.max(count), u32::MAX])),
            3 => Call::Left(above),
            4 => Call::Row(above),
            _ => Call::Safe(above),
        };
        self.push(call);
    }

    fn any_call(&mut self) -> Call {
        let gross = gross(self.random, &self.book);
        match self.random.below(5) {
            0 | 1 => Call::Lay(self.ground.rule(self.random)),
            2 => Call::Lift(self.random.within(0..=9)),
            3 => Call::Row(gross),
            _ => Call::Safe(gross),
        }
    }

    fn garbled(&mut self) {
        let call = self.any_call();
        let bytes = garbled(self.random, call);
        if Call::read(&bytes).is_err() {
            self.steps.push(Step::Serve(Asked { bytes, room: LENGTH }));
        }
    }

    /// A call whose answer has too little room, so that nothing is asked.
    fn without_room(&mut self) {
        let (bytes, room) = (self.any_call().to_bytes(), self.random.size(0..=LENGTH - 1));
        self.steps.push(Step::Serve(Asked { bytes, room }));
    }

    /// A question with more room than its answer needs.
    fn with_more_room(&mut self) {
        self.question();
        if let Some(Step::Serve(asked)) = self.steps.last_mut() {
            asked.room = self.random.size(LENGTH + 1..=60);
        }
    }

    /// Left, row and safe of every gross, if the effort is left for it; a row goes by the square of the rules.
    fn every(&mut self) {
        let rules = self.book.rules.len() as u64 + 4;
        let effort = (u64::from(self.book.bound) + 1) * rules * rules;
        if effort <= self.effort {
            self.effort -= effort;
            self.steps.push(Step::Every);
        }
    }

    fn mixed(&mut self) {
        match self.random.below(32) {
            0..6 => self.lay(),
            6..10 => self.lift(),
            10..19 => self.question(),
            19..24 => self.refused(),
            24..26 => self.garbled(),
            26 => self.without_room(),
            27 => self.with_more_room(),
            28..30 => self.steps.push(Step::Rows),
            _ => self.every(),
        }
    }
}

/// A book up to such a bound, some rules that are laid at once, and then calls of all sorts; rows at the end.
pub fn case(random: &mut Random, most_bound: u32, effort: u64) -> Case {
    let (limit, bound) = (limit(random), bound(random, most_bound));
    let loan = loan(random, limit);
    let ground = Ground::new(random, bound);
    let count = random.size(20..=60);
    let at_once = random.size(0..=limit as usize).max(random.size(0..=limit as usize));
    // A few books of many rules may be asked of every gross, too.
    let effort = if random.once_in(40) { 30 * effort } else { effort };
    let mut list = List { random, ground, book: Book::new(limit, bound), steps: Vec::new(), effort };
    (0..at_once).for_each(|_| list.lay());
    (0..count).for_each(|_| list.mixed());
    list.every();
    list.steps.push(Step::Rows);
    Case { limit, bound, loan, steps: list.steps }
}

#[cfg(test)]
mod tests {
    use super::*;
    use crate::rules::KINDS;

    fn cases(most_bound: u32) -> Vec<Case> {
        (0..400).map(|number| case(&mut Random::of_case(5, 0, number), most_bound, 1000)).collect()
    }

    fn calls(cases: &[Case]) -> Vec<Result<Call, crate::calls::Garbled>> {
        let steps = cases.iter().flat_map(|case| &case.steps);
        steps.filter_map(|step| if let Step::Serve(asked) = step { Some(Call::read(&asked.bytes)) } else { None }).collect()
    }

    #[test]
    fn bounds_and_limits_have_their_ends() {
        let cases = cases(256);
        for bound in [0, 1, 256] {
            assert!(cases.iter().any(|case| case.bound == bound), "{bound}");
        }
        for limit in [0, 1, 64] {
            assert!(cases.iter().any(|case| case.limit == limit), "{limit}");
        }
        assert!(cases.iter().all(|case| case.bound <= 256 && case.limit <= 64 && case.loan.words >= asked(case.limit)));
        assert!(cases.iter().any(|case| case.loan.words == asked(case.limit)));
    }

    #[test]
    fn lists_have_every_kind_of_call_and_rule_in_range_and_out_of_it() {
        let calls = calls(&cases(1_000_000_000));
        for kind in 0..KINDS {
            let rules = || calls.iter().filter_map(|call| if let Ok(Call::Lay(rule)) = call { Some(rule) } else { None });
            let of_kind = |fits: bool| rules().any(|rule| rule.kind() == kind && rule.in_range() == fits);
            assert!(of_kind(true) && of_kind(false), "{kind}");
        }
        for length in 0..14 {
            assert!(calls.iter().any(|call| call.is_err_and(|garbled| garbled.place == length)), "{length}");
        }
        for kind in 1..5 {
            assert!(calls.iter().any(|call| call.is_ok_and(|call| call.to_bytes()[0] == kind)), "{kind}");
        }
    }
}
