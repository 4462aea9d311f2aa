//! The first model: every gross with every larger one, by the definition of the rules. For small bounds.

use crate::model::{LosingRow, Model};
use crate::rules::Rule;

/// What a rule gives to who earns so much.
fn plus(rule: Rule, gross: u32) -> u64 {
    let g = u64::from(gross);
    match rule {
        Rule::Give { from, to, rate } => u64::from(rate) * g.min(to.into()).saturating_sub(from.into()),
        Rule::GiveSum { from, to, sum } if from <= gross && gross < to => 10_000 * u64::from(sum),
        Rule::Fade { from, rate, sum } => (10_000 * u64::from(sum)).saturating_sub(u64::from(rate) * g.saturating_sub(from.into())),
        _ => 0,
    }
}

/// What a rule takes.
fn minus(rule: Rule, gross: u32) -> u64 {
    let g = u64::from(gross);
    match rule {
        Rule::Take { from, to, rate } => u64::from(rate) * g.min(to.into()).saturating_sub(from.into()),
        Rule::TakeSum { from, to, sum } if from <= gross && gross < to => 10_000 * u64::from(sum),
        _ => 0,
    }
}

/// What comes in, and what goes out.
fn flows(rules: &[Rule], gross: u32) -> (u64, u64) {
    let given: u64 = rules.iter().map(|&rule| plus(rule, gross)).sum();
    let taken = rules.iter().map(|&rule| minus(rule, gross)).sum();
    (10_000 * u64::from(gross) + given, taken)
}

/// Net of each gross up to the bound, and whether it loses.
#[derive(Clone, Debug)]
pub struct Tries {
    bound: u32,
    flows: Vec<(u64, u64)>,
    nets: Vec<i128>,
    loses: Vec<bool>,
}

impl Tries {
    fn net(&self, gross: u32) -> i128 {
        self.nets[gross as usize]
    }

    pub fn loses(&self, gross: u32) -> bool {
        self.loses[gross as usize]
    }

    /// Is at least as much left of each gross from one on?
    fn is_enough(&self, from: u32, net: i128) -> bool {
        (from..=self.bound).all(|more| self.net(more) >= net)
    }
}

impl Model for Tries {
    fn of(rules: &[Rule], bound: u32) -> Self {
        let flows: Vec<_> = (0..=bound).map(|gross| flows(rules, gross)).collect();
        let nets: Vec<_> = flows.iter().map(|&(inflow, outflow)| i128::from(inflow) - i128::from(outflow)).collect();
        let loses = (0..nets.len()).map(|gross| nets[gross + 1..].iter().any(|&more| more < nets[gross])).collect();
        Self { bound, flows, nets, loses }
    }

    fn left(&self, gross: u32) -> (u64, u64) {
        self.flows[gross as usize]
    }

    fn row(&self, from: u32) -> Option<LosingRow> {
        let first = (from..=self.bound).find(|&gross| self.loses(gross))?;
        let last = (first..=self.bound).take_while(|&gross| self.loses(gross)).last()?;
        Some(LosingRow { first, last })
    }

    fn safe(&self, gross: u32) -> Option<u32> {
        (gross + 1..=self.bound).find(|&more| self.is_enough(more, self.net(gross)))
    }

    fn rows(&self) -> Vec<LosingRow> {
        let mut rows: Vec<LosingRow> = Vec::new();
        for gross in (0..=self.bound).filter(|&gross| self.loses(gross)) {
            match rows.last_mut() {
                Some(row) if row.last + 1 == gross => row.last = gross,
                _ => rows.push(LosingRow { first: gross, last: gross }),
            }
        }
        rows
    }
}
