//! That the harness can fail: faulty desks are found, and what shows it is made short and printed.

use harness::answers::{Answer, LENGTH};
use harness::books::{Book, asked};
use harness::calls::Call;
use harness::cases::{Asked, Case, Loan, Step};
use harness::check::{Difference, run};
use harness::memory::{Changed, Memory, Side};
use harness::model::Model;
use harness::rules::Rule;
use harness::runs::{books_sorted, books_tried, memories, openings};
use harness::session::{Desk, Opened, Session};
use harness::shrink::shrink;
use harness::sorts::{Sorted, SortedBook};
use harness::tries::Tries;
use harness::written::{Written, without_book};

#[derive(Clone, Copy, Debug, PartialEq, Eq)]
enum Flaw {
    RowCutShort,
    SafeTooLow,
    LeftInForOut,
    SumHoldsAtItsEnd,
    FadeWithoutItsLastUnit,
    RowOfOneLeftOut,
    RowNotJoined,
    BoundForgotten,
    WordAfterARefusal,
    WordAfterAQuestion,
    WordBehind,
    SlotLeftByALift,
    RuleLeftByALift,
    ServedWithoutRoom,
    AnswerTooLong,
    FullBeforeOutOfRange,
    MemoryBeforeGarbled,
    PlaceOneOff,
    UnusedSlotsRead,
    BoundBeforeLimit,
    OneWordShort,
    ScratchNotCleared,
    OpenedAlthoughRefused,
    OnesKeptAtOpening,
}

use Flaw::*;

/// The session, but for one flaw.
struct Faulty(Flaw);

impl Faulty {
    /// The answer that has the flaw, if it is one of answers; what has no flaw is none.
    fn other_answer(&self, before: &[u64], call: Option<Call>, told: Answer) -> Option<Answer> {
        let refused = |number, place| Some(Answer::Refused { number, place });
        let book = Book::read(before);
        match (self.0, call?, told) {
            (RowCutShort, Call::Row(_), Answer::Two(first, last)) if last > first => Some(Answer::Two(first, last - 1)),
            (SafeTooLow, Call::Safe(gross), Answer::Number(from)) if from > u64::from(gross) + 2 => Some(Answer::Number(from - 1)),
            (LeftInForOut, Call::Left(_), Answer::Two(inflow, outflow)) => Some(Answer::Two(outflow, inflow)),
            (SumHoldsAtItsEnd, Call::Left(_) | Call::Row(_) | Call::Safe(_), Answer::Number(_) | Answer::Two(..)) => {
                Some(Written::<SortedBook>::of(with_longer_sums(book?)).answer(&call?.to_bytes()))
            }
            (FadeWithoutItsLastUnit, Call::Left(gross), Answer::Two(inflow, outflow)) => {
                let rests: u64 = book?.rules.iter().map(|&rule| last_rest(rule, gross)).sum();
                Some(Answer::Two(inflow - rests, outflow))
            }
            (RowOfOneLeftOut, Call::Row(_), Answer::Two(first, last)) if first == last => Some(Answer::Two(0, 0)),
            (RowNotJoined, Call::Row(_), Answer::Two(first @ 1.., last)) => {
                let (book, gross) = (book?, first as u32 - 1);
                let sorted = Sorted::new(&book.rules, book.bound);
                let segment = sorted.segments().iter().find(|segment| segment.last >= gross)?;
                Some(Answer::Two(first, last.min(u64::from(segment.last) + 1)))
            }
            (BoundForgotten, Call::Row(gross), Answer::Two(1.., _)) => {
                let Book { bound, rules, .. } = book?;
                let row = Sorted::new(&rules, bound - 1).row(gross);
                Some(row.map_or(Answer::Two(0, 0), |row| Answer::Two(u64::from(row.first) + 1, u64::from(row.last) + 1)))
            }
            (FullBeforeOutOfRange, Call::Lay(_), Answer::Refused { number: 2, .. }) if book?.is_full() => refused(5, 0),
            (UnusedSlotsRead, _, _) if unused_slot(before)? > 4 => refused(3, 2),
            _ => None,
        }
    }

    fn other_words(&self, before: &[u64], words: &mut [u64], call: Option<Call>, told: Answer) {
        let (Some(book), false) = (Book::read(before), told.is_refused()) else {
            if self.0 == WordAfterARefusal && words.len() > 50 {
                words[50] ^= 1;
            }
            return;
        };
        let (asked, last) = (asked(book.limit), 4 * book.rules.len());
        match (self.0, call) {
            (WordAfterAQuestion, Some(Call::Row(_))) => words[asked - 1] = 9,
            (WordBehind, Some(Call::Lay(_))) if words.len() > asked => words[asked] ^= 1 << 60,
            (SlotLeftByALift, Some(Call::Lift(_))) => words[last..last + 4].copy_from_slice(&before[last..last + 4]),
            (RuleLeftByALift, Some(Call::Lift(_))) => words.copy_from_slice(before),
            (ScratchNotCleared, Some(_)) => words[asked - 1] = before[asked - 1],
            _ => {}
        }
    }
}

/// The kind of the first slot that is not counted, if there is one.
fn unused_slot(words: &[u64]) -> Option<u64> {
    let book = Book::read(words)?;
    if book.is_full() { None } else { words.get(4 + 4 * book.rules.len()).copied() }
}

/// What is left of a fade where it is less than its rate.
fn last_rest(rule: Rule, gross: u32) -> u64 {
    let Rule::Fade { from, rate, sum } = rule else {
        return 0;
    };
    let left = (10_000 * u64::from(sum)).saturating_sub(u64::from(rate) * u64::from(gross.saturating_sub(from)));
    if left < rate.into() { left } else { 0 }
}

fn with_longer_sums(mut book: Book) -> Book {
    for rule in &mut book.rules {
        if let Rule::TakeSum { to, .. } | Rule::GiveSum { to, .. } = rule {
            *to += 1;
        }
    }
    book
}

impl Desk for Faulty {
    fn open(&self, words: &mut [u64], rules: u32, bound: u32) -> Opened {
        let refused = |place| Opened { number: 3, place };
        let before = words.to_vec();
        let told = match self.0 {
            BoundBeforeLimit if bound > 1_000_000_000 => return refused(1),
            OneWordShort if rules <= 64 && words.len() + 1 == asked(rules) => return Opened { number: 0, place: 0 },
            _ => Session.open(words, rules, bound),
        };
        if self.0 == OpenedAlthoughRefused && told.number != 0 && !words.is_empty() {
            words[0] ^= 1;
        }
        if self.0 == OnesKeptAtOpening && told.number == 0 && before.last() == Some(&u64::MAX) {
            words[asked(rules) - 1] = u64::MAX;
        }
        told
    }

    fn serve(&self, words: &mut [u64], bytes: &[u8], out: &mut [u8]) -> usize {
        if self.0 == ServedWithoutRoom && out.len() < LENGTH {
            Session.serve(words, bytes, &mut [0; LENGTH]);
            return 0;
        }
        let before = words.to_vec();
        let count = Session.serve(words, bytes, out);
        let Some(answer) = out.first_chunk_mut::<LENGTH>() else {
            return count;
        };
        let (call, told) = (Call::read(bytes), Answer::read(answer).expect("an answer"));
        let other = match (self.0, without_book(bytes), call) {
            (MemoryBeforeGarbled, _, Err(_)) if Book::read(words).is_none() => Some(Answer::Refused { number: 3, place: 2 }),
            (PlaceOneOff, Answer::Refused { place, .. }, Err(_)) if place > 5 => {
                Some(Answer::Refused { number: 1, place: place - 1 })
            }
            _ => self.other_answer(&before, call.ok(), told),
        };
        *answer = other.unwrap_or(told).to_bytes();
        self.other_words(&before, words, call.ok(), told);
        if self.0 == AnswerTooLong && out.len() > LENGTH {
            out[LENGTH] = 0;
        }
        count
    }
}

type Runs = fn(&Faulty, u64, u64) -> Result<(), String>;

const TRIED: Runs = books_tried;
const SORTED: Runs = books_sorted;

/// What is printed of a flaw, and the calls that show it.
fn found(flaw: Flaw, run: Runs) -> (String, Vec<String>) {
    let text = run(&Faulty(flaw), 1, 2000).expect_err(&format!("{flaw:?} is not found"));
    let is_call = |line: &&str| line.ends_with(']') && !line.contains("as bytes") || line.ends_with("bytes");
    let calls = text.lines().filter(is_call).map(str::to_owned).collect();
    (text, calls)
}

/// Is it found by both runs of books, by at most so many calls, of which the last is this, with such a difference?
fn shows(flaw: Flaw, most: usize, last: &str, difference: &str) {
    for run in [TRIED, SORTED] {
        let (text, calls) = found(flaw, run);
        assert!((1..=most).contains(&calls.len()), "{flaw:?}: {text}");
        assert!(calls.last().is_some_and(|call| call.starts_with(last)), "{flaw:?}: {text}");
        assert!(text.contains(difference), "{flaw:?}: {text}");
    }
}

#[test]
fn nothing_is_found_where_there_is_no_flaw() {
    assert_eq!(books_tried(&Session, 1, 300), Ok(()));
    assert_eq!(books_sorted(&Session, 1, 300), Ok(()));
    assert_eq!(openings(&Session, 1, 2000), Ok(()));
    assert_eq!(memories(&Session, 1, 5000), Ok(()));
}

fn all_show(table: &[(Flaw, usize, &str, &str)]) {
    for &(flaw, most, call, difference) in table {
        shows(flaw, most, call, difference);
    }
}

#[test]
fn wrong_answers() {
    all_show(&[
        (RowCutShort, 4, "  row from", "answered"),
        (SafeTooLow, 4, "  safe above", "answered"),
        (LeftInForOut, 2, "  left of", "answered"),
        (SumHoldsAtItsEnd, 6, "  ", "answered"),
        (FadeWithoutItsLastUnit, 2, "  left of", "answered"),
        (RowOfOneLeftOut, 5, "  row from", "answered 0 and 0"),
        (RowNotJoined, 5, "  row from", "answered"),
        (BoundForgotten, 5, "  row from", "answered"),
    ]);
}

#[test]
fn wrong_refusals() {
    all_show(&[
        (FullBeforeOutOfRange, 2, "  lay: ", "answered refused 5 at 0, expected refused 2 at 0"),
        (PlaceOneOff, 1, "  garbled at", "answered refused 1 at"),
    ]);
}

#[test]
fn words_that_changed() {
    all_show(&[
        (WordAfterARefusal, 1, "  ", "word 50 is 1, expected 0"),
        (WordAfterAQuestion, 1, "  row from", "is 9, expected 0"),
        (WordBehind, 1, "  lay: ", "expected"),
        (SlotLeftByALift, 2, "  lift", "expected 0"),
        (OnesKeptAtOpening, 2, "  l", "in a fresh book with the same rules"),
        (RuleLeftByALift, 2, "  lift", "word 3 is 1, expected 0"),
    ]);
}

#[test]
fn room_for_answers() {
    all_show(&[
        (ServedWithoutRoom, 2, "  l", ", with room for "),
        (AnswerTooLong, 1, "  ", "byte 24 of the room for an answer is 0, expected 219"),
    ]);
}

fn finds(flaw: Flaw, run: Runs, difference: &str) {
    let text = run(&Faulty(flaw), 1, 20_000).expect_err(&format!("{flaw:?} is not found"));
    assert!(text.contains(difference), "{flaw:?}: {text}");
}

#[test]
fn openings_that_are_wrong() {
    finds(BoundBeforeLimit, openings, "the opening was refused 3 at 1, expected refused 3 at 0");
    finds(OneWordShort, openings, "the opening was accepted, expected refused 3 at 2");
    finds(OpenedAlthoughRefused, openings, "word 0 is");
}

#[test]
fn memories_that_are_read_wrong() {
    finds(MemoryBeforeGarbled, memories, "answered refused 3 at 2, expected refused 1 at");
    finds(UnusedSlotsRead, memories, "answered refused 3 at 2, expected");
    finds(WordAfterARefusal, memories, "word 50 is");
    finds(ScratchNotCleared, memories, "expected 0");
    finds(WordBehind, memories, ", expected ");
    finds(SumHoldsAtItsEnd, memories, "answered");
}

#[test]
fn a_word_far_from_what_is_lent() {
    let loan = Loan { words: 64, side: Side::Lower, fill: None };
    let case = Case { limit: 0, bound: 9, loan, steps: vec![Step::Rows] };
    let mut memory = Memory::new().expect("memory");
    memory.words.lend(1000, Side::Lower);
    memory.words.lent_mut()[900] ^= 1;
    let fault = run::<Tries>(&Session, &mut memory, &case).expect_err("it is not found");
    assert!(matches!(fault.difference, Difference::Word(Changed { place: 900, .. })), "{fault:?}");
    assert_eq!(run::<Tries>(&Session, &mut memory, &case), Ok(()));
}

fn printed<M: Model>(flaw: Flaw, steps: Vec<Step>) -> String {
    let loan = Loan { words: 96, side: Side::Lower, fill: None };
    let case = Case { limit: 1, bound: 40, loan, steps };
    let desk = Faulty(flaw);
    let mut memory = Memory::new().expect("memory");
    let fault = run::<M>(&desk, &mut memory, &case).expect_err("it is not found");
    let (case, fault) = shrink(case, fault, |case| run::<M>(&desk, &mut memory, case).err());
    format!("{case}\n  {}", fault.difference)
}

#[test]
fn what_is_printed() {
    let lay = Call::Lay(Rule::TakeSum { from: 10, to: 20, sum: 3 });
    let calls = [Call::Left(3), lay, Call::Safe(9), Call::Lift(1)].map(Asked::call).map(Step::Serve);
    let steps = [&calls[..], &[Step::Every, Step::Rows]].concat();
    let expected = "limit 1, bound 40, 96 words against the lower guard, holding 0
  lay: take a sum of 3 from 10 to 20 [00 02 0a 00 00 00 14 00 00 00 03 00 00 00]
  row from 0 [03 00 00 00 00]
  answered 9 and 9, expected 9 and 10
  as bytes [02 00 00 00 00 00 00 00 09 00 00 00 00 00 00 00 09 00 00 00 00 00 00 00], \
expected [02 00 00 00 00 00 00 00 09 00 00 00 00 00 00 00 0a 00 00 00 00 00 00 00]";
    assert_eq!(printed::<Tries>(RowCutShort, steps.clone()), expected);
    assert_eq!(printed::<SortedBook>(RowCutShort, steps), expected);
}
