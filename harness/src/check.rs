//! A list of calls on a desk, beside a model: the first difference.

use crate::answers::{Answer, LENGTH, shown};
use crate::books::{Book, asked};
use crate::calls::{Call, hex};
use crate::cases::{Asked, Case, Step};
use crate::memory::{Changed, Memory, Side};
use crate::model::{LosingRow, Model};
use crate::session::{Desk, Opened};
use crate::written::{Written, opening, without_book};
use std::fmt;

/// What isn't as it must be.
#[derive(Clone, Debug, PartialEq, Eq)]
pub enum Difference {
    Opening {
        told: Opened,
        must: Opened,
    },
    Count {
        told: usize,
        must: usize,
    },
    Answer {
        told: [u8; LENGTH],
        must: Answer,
    },
    Room(Changed<u8>),
    Word(Changed<u64>),
    /// A word isn't that of a fresh book in which the same rules were laid.
    Fresh {
        place: usize,
        is: u64,
        fresh: u64,
    },
    Rows {
        told: Vec<LosingRow>,
        must: Vec<LosingRow>,
    },
}

/// A difference, at which step, and at which call where it was one.
#[derive(Clone, Debug, PartialEq, Eq)]
pub struct Fault {
    pub step: usize,
    pub asked: Option<Asked>,
    pub difference: Difference,
}

/// A desk, the memory lent to it, and the written book, if the memory holds one.
pub struct Check<'a, D, M> {
    desk: &'a D,
    memory: &'a mut Memory,
    side: Side,
    written: Option<Written<M>>,
}

type Served = Result<Option<Answer>, Difference>;
type Stepped = Result<(), (Option<Asked>, Difference)>;

impl<'a, D: Desk, M: Model> Check<'a, D, M> {
    /// Of whatever the lent words hold.
    pub fn of_words(desk: &'a D, memory: &'a mut Memory, side: Side) -> Self {
        let written = Book::read(memory.words.lent()).map(Written::of);
        Self { desk, memory, side, written }
    }

    /// Opens a book in the lent words. Where that is refused a book may be there, too.
    pub fn open(desk: &'a D, memory: &'a mut Memory, side: Side, limit: u32, bound: u32) -> Result<Self, Difference> {
        let must = opening(memory.words.lent().len(), limit, bound);
        let told = desk.open(memory.words.lent_mut(), limit, bound);
        if told != must {
            return Err(Difference::Opening { told, must });
        }
        if must.number == 0 {
            memory.words.expect(&Book::new(limit, bound).image());
        }
        let check = Self::of_words(desk, memory, side);
        check.compare_words()?;
        Ok(check)
    }

    fn compare_words(&self) -> Result<(), Difference> {
        self.memory.words.changed().map_or(Ok(()), |changed| Err(Difference::Word(changed)))
    }

    /// What must be answered. All words must then be as they were, unless it is accepted: then they are the whole book.
    fn expect(&mut self, bytes: &[u8]) -> Answer {
        let Some(written) = &mut self.written else {
            return without_book(bytes);
        };
        let must = written.answer(bytes);
        if !must.is_refused() {
            self.memory.words.expect(&written.book().image());
        }
        must
    }

    fn compare_answer(&mut self, told: usize, must: Option<Answer>) -> Result<(), Difference> {
        let count = if must.is_some() { LENGTH } else { 0 };
        if told != count {
            return Err(Difference::Count { told, must: count });
        }
        if let Some(must) = must {
            let bytes = self.memory.out.lent().first_chunk::<LENGTH>();
            if let Some(&told) = bytes.filter(|&&told| told != must.to_bytes()) {
                return Err(Difference::Answer { told, must });
            }
            self.memory.out.expect(&must.to_bytes());
        }
        self.memory.out.changed().map_or(Ok(()), |changed| Err(Difference::Room(changed)))
    }

    /// One call: where the room is too short nothing is asked.
    pub fn serve(&mut self, asked: &Asked) -> Served {
        let must = (asked.room >= LENGTH).then(|| self.expect(&asked.bytes));
        let Memory { words, bytes, out } = &mut *self.memory;
        bytes.lend(asked.bytes.len(), self.side);
        bytes.put(asked.bytes.iter().copied());
        out.lend(asked.room, self.side);
        out.put((0..asked.room).map(|at| 0xc3 ^ at as u8));
        let told = self.desk.serve(words.lent_mut(), bytes.lent(), out.lent_mut());
        self.compare_answer(told, must)?;
        self.compare_words()?;
        Ok(must)
    }

    /// Is all memory as it must be, also far from what is lent?
    pub fn finish(&self) -> Result<(), Difference> {
        if let Some(changed) = self.memory.words.changed_anywhere() {
            return Err(Difference::Word(changed));
        }
        self.memory.out.changed_anywhere().map_or(Ok(()), |changed| Err(Difference::Room(changed)))
    }

    fn step(&mut self, number: usize, step: &Step) -> Stepped {
        match step {
            Step::Every => self.every(),
            Step::Rows => self.rows(),
            Step::Serve(asked) => self.listed(number, asked).map_err(|difference| (Some(asked.clone()), difference)),
        }
    }

    /// A call of the list. To lay all rules anew takes time, so that is not done after each lay.
    fn listed(&mut self, number: usize, asked: &Asked) -> Result<(), Difference> {
        let must = self.serve(asked)?;
        let often = match Call::read(&asked.bytes) {
            Ok(Call::Lift(_)) => true,
            Ok(Call::Lay(_)) => number.is_multiple_of(4),
            _ => false,
        };
        if often && must.is_some_and(|answer| !answer.is_refused()) { self.compare_fresh() } else { Ok(()) }
    }

    fn one(&mut self, call: Call) -> Result<Answer, (Option<Asked>, Difference)> {
        let asked = Asked::call(call);
        match self.serve(&asked) {
            Ok(answer) => Ok(answer.unwrap_or(Answer::Two(0, 0))),
            Err(difference) => Err((Some(asked), difference)),
        }
    }

    fn every(&mut self) -> Stepped {
        let bound = self.written.as_ref().map_or(0, |written| written.book().bound);
        for gross in 0..=bound {
            for call in [Call::Left(gross), Call::Row(gross), Call::Safe(gross)] {
                self.one(call)?;
            }
        }
        Ok(())
    }

    fn rows(&mut self) -> Stepped {
        let bound = self.written.as_ref().map_or(0, |written| written.book().bound);
        let (mut from, mut told) = (0, Vec::new());
        while from <= bound {
            let Answer::Two(first @ 1.., last) = self.one(Call::Row(from))? else {
                break;
            };
            let row = LosingRow { first: first as u32 - 1, last: last as u32 - 1 };
            self.around(row, bound)?;
            told.push(row);
            from = last as u32;
        }
        let must = self.written.as_mut().map_or(Vec::new(), |written| written.model().rows());
        if told == must { Ok(()) } else { Err((None, Difference::Rows { told, must })) }
    }

    fn around(&mut self, LosingRow { first, last }: LosingRow, bound: u32) -> Stepped {
        for gross in [first.saturating_sub(1), first, last, last + 1] {
            self.one(Call::Left(gross.min(bound)))?;
            self.one(Call::Safe(gross.min(bound)))?;
        }
        Ok(())
    }

    /// Equal books have equal words, however they came about.
    fn compare_fresh(&self) -> Result<(), Difference> {
        let Some(written) = &self.written else {
            return Ok(());
        };
        let Book { limit, bound, rules } = written.book();
        let mut fresh = vec![u64::MAX; asked(*limit)];
        self.desk.open(&mut fresh, *limit, *bound);
        for &rule in rules {
            self.desk.serve(&mut fresh, &Call::Lay(rule).to_bytes(), &mut [0; LENGTH]);
        }
        let words = self.memory.words.lent();
        match fresh.iter().zip(words).position(|(fresh, is)| fresh != is) {
            Some(place) => Err(Difference::Fresh { place, is: words[place], fresh: fresh[place] }),
            None => Ok(()),
        }
    }
}

fn first_fault<M: Model>(desk: &impl Desk, memory: &mut Memory, case: &Case) -> Result<(), Fault> {
    case.loan.lend(memory);
    let opened = Check::<_, M>::open(desk, memory, case.loan.side, case.limit, case.bound);
    let mut check = opened.map_err(|difference| Fault { step: 0, asked: None, difference })?;
    for (number, step) in case.steps.iter().enumerate() {
        let taken = check.step(number, step);
        taken.map_err(|(asked, difference)| Fault { step: number, asked, difference })?;
    }
    check.finish().map_err(|difference| Fault { step: case.steps.len(), asked: None, difference })
}

/// Opens the book and takes the steps, up to the first difference. The memory is then as it must be.
pub fn run<M: Model>(desk: &impl Desk, memory: &mut Memory, case: &Case) -> Result<(), Fault> {
    first_fault::<M>(desk, memory, case).inspect_err(|_| memory.restore())
}

fn opened(opened: &Opened) -> String {
    if opened.number == 0 { "accepted".into() } else { format!("refused {} at {}", opened.number, opened.place) }
}

fn ranges(rows: &[LosingRow]) -> String {
    let shown: Vec<_> = rows.iter().map(|row| format!("{} to {}", row.first, row.last)).collect();
    if shown.is_empty() { "none".into() } else { shown.join(", ") }
}

impl fmt::Display for Difference {
    fn fmt(&self, f: &mut fmt::Formatter) -> fmt::Result {
        match self {
            Self::Opening { told, must } => write!(f, "the opening was {}, expected {}", opened(told), opened(must)),
            Self::Count { told, must } => write!(f, "{told} bytes were written, expected {must}"),
            Self::Answer { told, must } => {
                write!(f, "answered {}, expected {must}", shown(told))?;
                write!(f, "\n  as bytes [{}], expected [{}]", hex(told), hex(&must.to_bytes()))
            }
            Self::Room(Changed { place, is, must }) => write!(f, "byte {place} of the room for an answer is {is}, expected {must}"),
            Self::Word(Changed { place, is, must }) => write!(f, "word {place} is {is}, expected {must}"),
            Self::Fresh { place, is, fresh } => {
                write!(f, "word {place} is {is}, but {fresh} in a fresh book with the same rules")
            }
            Self::Rows { told, must } => write!(f, "all rows are {}, expected {}", ranges(told), ranges(must)),
        }
    }
}
