//! The written book: what every call must be answered.

use crate::answers::Answer;
use crate::books::{Book, MOST_RULES, asked};
use crate::calls::Call;
use crate::model::{LosingRow, Model};
use crate::rules::{MOST_GROSS, Rule};
use crate::session::Opened;

fn refused(number: u64) -> Answer {
    Answer::Refused { number, place: 0 }
}

/// What an opening must be answered, in so many words.
pub fn opening(words: usize, rules: u32, bound: u32) -> Opened {
    let refused = |place| Opened { number: 3, place };
    match () {
        () if rules > MOST_RULES => refused(0),
        () if bound > MOST_GROSS => refused(1),
        () if words < asked(rules) => refused(2),
        () => Opened { number: 0, place: 0 },
    }
}

/// What a call must be answered where the memory holds no book.
pub fn without_book(bytes: &[u8]) -> Answer {
    match Call::read(bytes) {
        Err(garbled) => Answer::Refused { number: 1, place: garbled.place },
        Ok(_) => Answer::Refused { number: 3, place: 2 },
    }
}

/// A book with a model of it, which is made once it is asked.
#[derive(Clone, Debug)]
pub struct Written<M> {
    book: Book,
    model: Option<M>,
}

impl<M: Model> Written<M> {
    pub fn of(book: Book) -> Self {
        Self { book, model: None }
    }

    pub fn book(&self) -> &Book {
        &self.book
    }

    pub fn model(&mut self) -> &M {
        self.model.get_or_insert_with(|| M::of(&self.book.rules, self.book.bound))
    }

    /// The answer to the call that the bytes are; the book is then the one after it.
    pub fn answer(&mut self, bytes: &[u8]) -> Answer {
        match Call::read(bytes) {
            Err(garbled) => Answer::Refused { number: 1, place: garbled.place },
            Ok(Call::Lay(rule)) => self.lay(rule),
            Ok(Call::Lift(number)) => self.lift(number),
            Ok(Call::Left(gross) | Call::Row(gross) | Call::Safe(gross)) if gross > self.book.bound => refused(2),
            Ok(Call::Left(gross)) => {
                let (inflow, outflow) = self.model().left(gross);
                Answer::Two(inflow, outflow)
            }
            Ok(Call::Row(gross)) => row_answer(self.model().row(gross)),
            Ok(Call::Safe(gross)) => Answer::Number(self.model().safe(gross).map_or(0, |from| u64::from(from) + 1)),
        }
    }

    fn lay(&mut self, rule: Rule) -> Answer {
        if !rule.in_range() {
            return refused(2);
        }
        if self.book.is_full() {
            return refused(5);
        }
        self.model = None;
        self.book.rules.push(rule);
        Answer::Number(self.book.rules.len() as u64 - 1)
    }

    fn lift(&mut self, number: u32) -> Answer {
        if number as usize >= self.book.rules.len() {
            return refused(4);
        }
        self.model = None;
        self.book.rules.remove(number as usize);
        Answer::Number(number.into())
    }
}

fn row_answer(row: Option<LosingRow>) -> Answer {
    row.map_or(Answer::Two(0, 0), |row| Answer::Two(u64::from(row.first) + 1, u64::from(row.last) + 1))
}
