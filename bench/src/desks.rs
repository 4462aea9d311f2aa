//! Who answers the calls that are measured, and whether all answer alike.

use crate::books::{Book, Kind};
use harness::answers::{Answer, LENGTH};
use harness::calls::Call;
use harness::model::{LosingRow, Model};
use harness::rules::Rule;
use harness::session::{Desk, Session};
use harness::sorts::{Sorted, flows};
use harness::tries::Tries;

/// How many words a book with a limit of so many rules asks for.
fn words_asked(limit: usize) -> usize {
    32 * limit + 64
}

/// Words into which the first rules of a book are laid, with a limit of all its rules.
pub fn words_with(book: &Book, count: usize) -> Vec<u64> {
    let mut words = vec![0; words_asked(book.rules.len())];
    Session.open(&mut words, book.rules.len() as u32, book.bound);
    let mut out = [0; LENGTH];
    for &rule in &book.rules[..count] {
        Session.serve(&mut words, &Call::Lay(rule).to_bytes(), &mut out);
    }
    words
}

fn told(row: Option<LosingRow>) -> Answer {
    row.map_or(Answer::Two(0, 0), |row| Answer::Two(u64::from(row.first) + 1, u64::from(row.last) + 1))
}

fn number(gross: Option<u32>) -> Answer {
    Answer::Number(gross.map_or(0, |gross| u64::from(gross) + 1))
}

/// The model that sorts breakpoints: it sorts them anew for each question, as the session makes its tables anew.
pub fn sorting(rules: &mut Vec<Rule>, bound: u32, call: Call) -> Option<Answer> {
    match call {
        Call::Lay(rule) if rule.in_range() => {
            rules.push(rule);
            Some(Answer::Number(rules.len() as u64 - 1))
        }
        Call::Left(gross) if gross <= bound => {
            let (inflow, outflow) = flows(rules, gross);
            Some(Answer::Two(inflow, outflow))
        }
        Call::Row(gross) if gross <= bound => Some(told(Sorted::new(rules, bound).row(gross))),
        Call::Safe(gross) if gross <= bound => Some(number(Sorted::new(rules, bound).safe(gross))),
        _ => None,
    }
}

/// The model that tries all grosses, likewise anew for each question.
pub fn trying(rules: &mut Vec<Rule>, bound: u32, call: Call) -> Option<Answer> {
    match call {
        Call::Row(gross) if gross <= bound => Some(told(Tries::of(rules, bound).row(gross))),
        Call::Safe(gross) if gross <= bound => Some(number(Tries::of(rules, bound).safe(gross))),
        _ => sorting(rules, bound, call),
    }
}

/// Does the sorting model give the session's answers?
pub fn agree(book: &Book) -> Result<(), String> {
    for kind in Kind::ALL {
        let count = book.rules.len() - usize::from(kind == Kind::Lay);
        let mut words = words_with(book, count);
        let mut rules = book.rules[..count].to_vec();
        for call in book.questions(kind) {
            let mut answer = [0; LENGTH];
            Session.serve(&mut words, &call.to_bytes(), &mut answer);
            if Some(answer) != sorting(&mut rules, book.bound, call).map(Answer::to_bytes) {
                return Err(format!("the sorting model differs at: {call}"));
            }
        }
    }
    Ok(())
}
