//! Cases: a book that is opened, and what is then done with it.

use crate::answers::LENGTH;
use crate::calls::{Call, hex};
use crate::memory::{Memory, Side};
use crate::random::Random;
use std::fmt;

/// The bytes of a call, and room for so many bytes of an answer.
#[derive(Clone, Debug, PartialEq, Eq)]
pub struct Asked {
    pub bytes: Vec<u8>,
    pub room: usize,
}

impl Asked {
    pub fn call(call: Call) -> Self {
        Self { bytes: call.to_bytes(), room: LENGTH }
    }
}

/// What is done with an opened book.
#[derive(Clone, Debug, PartialEq, Eq)]
pub enum Step {
    Serve(Asked),
    /// Left, row and safe of every gross up to the bound.
    Every,
    /// Rows one after the other, each from one past the last row's last, and of each what is left and safe at and around its ends.
    Rows,
}

/// How much is lent, at which end, and whether it holds anything before, by a seed.
#[derive(Clone, Copy, Debug, PartialEq, Eq)]
pub struct Loan {
    pub words: usize,
    pub side: Side,
    pub fill: Option<u64>,
}

impl Loan {
    pub fn lend(self, memory: &mut Memory) {
        let mut random = Random::new(self.fill.unwrap_or_default());
        memory.words.lend(self.words, self.side);
        memory.words.put((0..self.words).map(|_| self.fill.map_or(0, |_| random.word())));
    }
}

/// A book that is opened, and what is then done with it.
#[derive(Clone, Debug, PartialEq, Eq)]
pub struct Case {
    pub limit: u32,
    pub bound: u32,
    pub loan: Loan,
    pub steps: Vec<Step>,
}

impl fmt::Display for Asked {
    fn fmt(&self, f: &mut fmt::Formatter) -> fmt::Result {
        match Call::read(&self.bytes) {
            Ok(call) => write!(f, "{call}")?,
            Err(garbled) => write!(f, "garbled at {}", garbled.place)?,
        }
        write!(f, " [{}]", hex(&self.bytes))?;
        if self.room == LENGTH { Ok(()) } else { write!(f, ", with room for {} bytes", self.room) }
    }
}

impl fmt::Display for Step {
    fn fmt(&self, f: &mut fmt::Formatter) -> fmt::Result {
        match self {
            Self::Serve(asked) => asked.fmt(f),
            Self::Every => write!(f, "left, row and safe of every gross"),
            Self::Rows => write!(f, "rows one after the other, and around each"),
        }
    }
}

impl fmt::Display for Loan {
    fn fmt(&self, f: &mut fmt::Formatter) -> fmt::Result {
        let side = match self.side {
            Side::Lower => "lower",
            Side::Upper => "upper",
        };
        let fill = self.fill.map_or("0".into(), |seed| format!("anything, by the seed {seed}"));
        write!(f, "{} words against the {side} guard, holding {fill}", self.words)
    }
}

impl fmt::Display for Case {
    fn fmt(&self, f: &mut fmt::Formatter) -> fmt::Result {
        write!(f, "limit {}, bound {}, {}", self.limit, self.bound, self.loan)?;
        self.steps.iter().try_for_each(|step| write!(f, "\n  {step}"))
    }
}
