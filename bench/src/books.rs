//! The books that are measured: the same rules at each bound, farther apart, so that they have as many segments.

use harness::calls::Call;
use harness::rules::Rule;

/// So many questions of each kind are asked of a book, in turn.
const QUESTIONS: u32 = 64;

#[derive(Clone, Copy, Debug, PartialEq, Eq)]
pub enum Kind {
    Left,
    Row,
    Safe,
    Lay,
}

impl Kind {
    pub const ALL: [Self; 4] = [Self::Left, Self::Row, Self::Safe, Self::Lay];

    pub fn name(self) -> &'static str {
        match self {
            Self::Left => "left",
            Self::Row => "row",
            Self::Safe => "safe",
            Self::Lay => "lay",
        }
    }
}

#[derive(Clone, Debug)]
pub struct Book {
    pub bound: u32,
    pub rules: Vec<Rule>,
}

/// The i-th of so many rules: its kind by turns, from one breakpoint to the next.
fn rule(i: u32, step: u32) -> Rule {
    let from = step * (2 * i + 1);
    let to = from + step;
    // A third of what is earned between the two, in units.
    let sum = (step / 3).clamp(1, 100_000_000);
    match i % 5 {
        0 => Rule::Take { from, to, rate: 3000 },
        1 => Rule::Give { from, to, rate: 500 },
        2 => Rule::TakeSum { from, to, sum },
        3 => Rule::GiveSum { from, to, sum },
        _ => Rule::Fade { from, rate: 4000, sum },
    }
}

impl Book {
    pub fn of(rules: u32, bound: u32) -> Self {
        let step = bound / (2 * rules + 2);
        Self { bound, rules: (0..rules).map(|i| rule(i, step)).collect() }
    }

    /// The grosses that are asked, from 0 to near the bound.
    pub fn questions(&self, kind: Kind) -> Vec<Call> {
        let grosses = (0..QUESTIONS).map(|i| (u64::from(self.bound) * u64::from(i) / u64::from(QUESTIONS)) as u32);
        match kind {
            Kind::Left => grosses.map(Call::Left).collect(),
            Kind::Row => grosses.map(Call::Row).collect(),
            Kind::Safe => grosses.map(Call::Safe).collect(),
            Kind::Lay => self.rules.last().map(|&rule| Call::Lay(rule)).into_iter().collect(),
        }
    }
}
