//! The runs: many random cases each, beside what must be answered. A failure is told as text.

use crate::cases::Asked;
use crate::check::{Check, Difference, run};
use crate::ground::{self, Ground, bound};
use crate::lists;
use crate::memories::{Held, asked_of, held, opening};
use crate::memory::Memory;
use crate::model::Model;
use crate::parallel::each;
use crate::random::Random;
use crate::rules::{MOST_GROSS, Rule};
use crate::session::Desk;
use crate::shrink::shrink;
use crate::sorts::SortedBook;
use crate::tries::Tries;

/// The highest bound up to which every gross is tried.
pub const MOST_TRIED: u32 = 256;

/// Each run has other random numbers.
#[derive(Clone, Copy)]
enum Of {
    BooksTried = 1,
    Openings,
    BooksSorted,
    Models,
    Memories,
}

fn random(seed: u64, of: Of, number: u64) -> Random {
    Random::of_case(seed, of as u64, number)
}

fn books<M: Model>(desk: &(impl Desk + Sync), seed: u64, of: Of, count: u64, most: u32, effort: u64) -> Result<(), String> {
    each(count, |memory, number| {
        let case = lists::case(&mut random(seed, of, number), most, effort);
        let Err(fault) = run::<M>(desk, memory, &case) else {
            return Ok(());
        };
        let (case, fault) = shrink(case, fault, |case| run::<M>(desk, memory, case).err());
        Err(format!("book {number}: {case}\n  {}", fault.difference))
    })
}

/// Books up to a small bound, beside the model that tries every gross; of many every gross is asked.
pub fn books_tried(desk: &(impl Desk + Sync), seed: u64, count: u64) -> Result<(), String> {
    books::<Tries>(desk, seed, Of::BooksTried, count, MOST_TRIED, 100_000)
}

/// Books up to any bound, beside the model that sorts breakpoints.
pub fn books_sorted(desk: &(impl Desk + Sync), seed: u64, count: u64) -> Result<(), String> {
    books::<SortedBook>(desk, seed, Of::BooksSorted, count, MOST_GROSS, 2000)
}

/// An opening, and then a call: to the book that was opened, or to what was there before.
fn open(desk: &impl Desk, memory: &mut Memory, limit: u32, bound: u32, held: &Held, asked: &Asked) -> Result<(), Difference> {
    memory.words.lend(held.words.len(), held.side);
    memory.words.put(held.words.iter().copied());
    let mut check = Check::<_, SortedBook>::open(desk, memory, held.side, limit, bound)?;
    check.serve(asked)?;
    check.finish()
}

/// Openings, most of which are refused.
pub fn openings(desk: &(impl Desk + Sync), seed: u64, count: u64) -> Result<(), String> {
    each(count, |memory, number| {
        let random = &mut random(seed, Of::Openings, number);
        let (limit, bound, held) = opening(random);
        let asked = asked_of(random, &held);
        open(desk, memory, limit, bound, &held, &asked).map_err(|difference| {
            let words = first_words(&held.words);
            format!("opening {number}: limit {limit}, bound {bound}, {words}\n  {asked}\n  {difference}")
        })
    })
}

fn first_words(words: &[u64]) -> String {
    let shown: Vec<_> = words.iter().take(40).map(u64::to_string).collect();
    let more = if words.len() > 40 { ", .." } else { "" };
    format!("{} words, {}{more}", words.len(), shown.join(", "))
}

/// Serves calls on such memory: at which one there is a difference, if at any.
fn serve(desk: &impl Desk, memory: &mut Memory, held: &Held, calls: &[Asked]) -> Option<(usize, Difference)> {
    memory.words.lend(held.words.len(), held.side);
    memory.words.put(held.words.iter().copied());
    let mut check = Check::<_, SortedBook>::of_words(desk, memory, held.side);
    let served = calls.iter().enumerate().find_map(|(at, asked)| check.serve(asked).err().map(|difference| (at, difference)));
    let fault = served.or_else(|| check.finish().err().map(|difference| (calls.len() - 1, difference)));
    if fault.is_some() {
        memory.restore();
    }
    fault
}

/// Memories that may hold a book, with two calls each, the second of which finds what the first left.
pub fn memories(desk: &(impl Desk + Sync), seed: u64, count: u64) -> Result<(), String> {
    each(count, |memory, number| {
        let random = &mut random(seed, Of::Memories, number);
        let held = held(random);
        let calls = [asked_of(random, &held), asked_of(random, &held)];
        let Some((at, difference)) = serve(desk, memory, &held, &calls) else {
            return Ok(());
        };
        let (calls, difference) = match serve(desk, memory, &held, &calls[at..=at]) {
            Some((_, alone)) => (&calls[at..=at], alone),
            None => (&calls[..=at], difference),
        };
        let calls: String = calls.iter().map(|asked| format!("\n  {asked}")).collect();
        Err(format!("memory {number}: {}{calls}\n  {difference}", first_words(&held.words)))
    })
}

fn difference(rules: &[Rule], bound: u32) -> Option<String> {
    let (tries, sorted) = (Tries::of(rules, bound), SortedBook::of(rules, bound));
    if tries.rows() != sorted.rows() {
        return Some(format!("all rows are {:?} by trying, {:?} by sorting", tries.rows(), sorted.rows()));
    }
    (0..=bound).find_map(|gross| {
        let tried = (tries.left(gross), tries.row(gross), tries.safe(gross));
        let sorted = (sorted.left(gross), sorted.row(gross), sorted.safe(gross));
        (tried != sorted).then(|| format!("left, row and safe of {gross} are {tried:?} by trying, {sorted:?} by sorting"))
    })
}

/// The two models beside each other.
pub fn models(seed: u64, count: u64) -> Result<(), String> {
    each(count, |_, number| {
        let random = &mut random(seed, Of::Models, number);
        let bound = bound(random, MOST_TRIED);
        let ground = Ground::new(random, bound);
        let rules: Vec<_> = (0..ground::limit(random)).map(|_| ground.rule(random)).collect();
        match difference(&rules, bound) {
            Some(why) => Err(format!("book {number}: bound {bound}, {rules:?}\n  {why}")),
            None => Ok(()),
        }
    })
}
