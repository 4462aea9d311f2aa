//! The measuring: all take turns, and of each the shortest of many rounds counts, so that what else runs falls on all alike.

use crate::books::{Book, Kind};
use crate::desks::{sorting, trying, words_with};
use harness::answers::{Answer, LENGTH};
use harness::calls::Call;
use harness::rules::Rule;
use harness::session::{Desk, Session};
use std::hint::black_box;
use std::time::Instant;

const ROUNDS: usize = 40;

/// What a round takes at least, so that reading the clock doesn't count.
const ROUND_NANOSECONDS: f64 = 200_000.0;

/// Up to this bound the model that tries all grosses ends in time.
const MOST_TRIED: u32 = 1_000;

/// Nanoseconds for a call, of the session and of the others.
#[derive(Clone, Debug)]
pub struct Line {
    pub kind: Kind,
    pub rules: usize,
    pub bound: u32,
    pub session: f64,
    pub tried: Option<f64>,
    pub sorted: f64,
}

/// The session serves calls on words of its own; after each round the words are as they were.
struct Served {
    words: Vec<Vec<u64>>,
    calls: Vec<Vec<u8>>,
}

trait Runs {
    /// Each call once.
    fn run(&mut self);

    /// How many calls that is.
    fn count(&self) -> usize;

    /// As it was before.
    fn restore(&mut self);
}

/// A lay is served on so many copies of a book, since it changes it.
const COPIES: usize = 16;

impl Served {
    fn new(book: &Book, kind: Kind) -> Self {
        let count = book.rules.len() - usize::from(kind == Kind::Lay);
        let copies = if kind == Kind::Lay { COPIES } else { 1 };
        let words = vec![words_with(book, count); copies];
        Self { words, calls: book.questions(kind).into_iter().map(Call::to_bytes).collect() }
    }
}

impl Runs for Served {
    fn run(&mut self) {
        let mut out = [0; LENGTH];
        for words in &mut self.words {
            for call in &self.calls {
                Session.serve(black_box(words), black_box(call), &mut out);
                black_box(&out);
            }
        }
    }

    fn count(&self) -> usize {
        self.words.len() * self.calls.len()
    }

    fn restore(&mut self) {
        // A slot that no rule is in may hold anything, so that the count is all that must be put back.
        if self.words.len() > 1 {
            for words in &mut self.words {
                words[3] -= 1;
            }
        }
    }
}

/// Asks a model that has its rules at hand.
struct Asked {
    ask: fn(&mut Vec<Rule>, u32, Call) -> Option<Answer>,
    bound: u32,
    rules: Vec<Vec<Rule>>,
    calls: Vec<Call>,
}

impl Asked {
    fn new(ask: fn(&mut Vec<Rule>, u32, Call) -> Option<Answer>, book: &Book, kind: Kind) -> Self {
        let count = book.rules.len() - usize::from(kind == Kind::Lay);
        let copies = if kind == Kind::Lay { COPIES } else { 1 };
        let rules = (0..copies).map(|_| {
            let mut rules = Vec::with_capacity(book.rules.len());
            rules.extend_from_slice(&book.rules[..count]);
            rules
        });
        Self { ask, bound: book.bound, rules: rules.collect(), calls: book.questions(kind) }
    }
}

impl Runs for Asked {
    fn run(&mut self) {
        for rules in &mut self.rules {
            for call in &self.calls {
                black_box((self.ask)(black_box(rules), self.bound, black_box(*call)));
            }
        }
    }

    fn count(&self) -> usize {
        self.rules.len() * self.calls.len()
    }

    fn restore(&mut self) {
        if self.rules.len() > 1 {
            for rules in &mut self.rules {
                rules.pop();
            }
        }
    }
}

/// Nanoseconds that so many runs take, without what puts them back.
fn timed(runs: &mut dyn Runs, times: usize) -> f64 {
    let mut nanoseconds = 0.0;
    for _ in 0..times {
        let start = Instant::now();
        runs.run();
        nanoseconds += start.elapsed().as_nanos() as f64;
        runs.restore();
    }
    nanoseconds
}

/// How many runs make a round.
fn times_for(runs: &mut dyn Runs) -> usize {
    let mut times = 1;
    while timed(runs, times) < ROUND_NANOSECONDS {
        times *= 2;
    }
    times
}

/// The shortest round of each, as nanoseconds for a call.
fn shortest(all: &mut [Box<dyn Runs>]) -> Vec<f64> {
    let times: Vec<usize> = all.iter_mut().map(|runs| times_for(runs.as_mut())).collect();
    let mut best = vec![f64::INFINITY; all.len()];
    for _ in 0..ROUNDS {
        for ((runs, &times), best) in all.iter_mut().zip(&times).zip(&mut best) {
            let calls = (times * runs.count()) as f64;
            *best = best.min(timed(runs.as_mut(), times) / calls);
        }
    }
    best
}

/// Who answers a kind of call on a book: the session, the sorting model, and the model that tries all where it ends.
fn all_on(book: &Book, kind: Kind) -> Vec<Box<dyn Runs>> {
    let mut all: Vec<Box<dyn Runs>> = vec![Box::new(Served::new(book, kind)), Box::new(Asked::new(sorting, book, kind))];
    if book.bound <= MOST_TRIED && matches!(kind, Kind::Row | Kind::Safe) {
        all.push(Box::new(Asked::new(trying, book, kind)));
    }
    all
}

/// A kind of call on books of as many rules, whose bounds are compared, so that all of them take turns.
pub fn measured(books: &[Book], kind: Kind) -> Vec<Line> {
    let mut all = Vec::new();
    let mut counts = Vec::new();
    for book in books {
        let on_book = all_on(book, kind);
        counts.push(on_book.len());
        all.extend(on_book);
    }
    let mut best = shortest(&mut all).into_iter();
    let line = |(book, count): (&Book, usize)| {
        let of_book: Vec<f64> = best.by_ref().take(count).collect();
        Line {
            kind,
            rules: book.rules.len(),
            bound: book.bound,
            session: of_book[0],
            sorted: of_book[1],
            tried: of_book.get(2).copied(),
        }
    };
    books.iter().zip(counts).map(line).collect()
}
