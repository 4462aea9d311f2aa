//! The example of the formats: the calls, and their answers by the session and by both models.

use harness::answers::{Answer, LENGTH};
use harness::books::{Book, asked};
use harness::calls::Call;
use harness::model::Model;
use harness::rules::Rule;
use harness::session::{Desk, Opened, Session};
use harness::sorts::SortedBook;
use harness::tries::Tries;
use harness::written::{Written, opening, without_book};

const LIMIT: u32 = 16;
const BOUND: u32 = 5000;

fn refused(number: u64, place: u64) -> Answer {
    Answer::Refused { number, place }
}

fn calls() -> Vec<(Call, Answer)> {
    let take = |from, to, rate| Call::Lay(Rule::Take { from, to, rate });
    let give = |from, to, sum| Call::Lay(Rule::GiveSum { from, to, sum });
    vec![
        (take(1000, 3000, 2000), Answer::Number(0)),
        (take(3000, 100_000, 4000), Answer::Number(1)),
        (give(0, 1500, 200), Answer::Number(2)),
        (Call::Lay(Rule::Fade { from: 500, rate: 3000, sum: 300 }), Answer::Number(3)),
        (Call::Left(1300), Answer::Two(15_600_000, 600_000)),
        (Call::Left(1510), Answer::Two(15_100_000, 1_020_000)),
        (Call::Left(1499), Answer::Two(16_993_000, 998_000)),
        (Call::Row(0), Answer::Two(1102, 1500)),
        (Call::Row(1500), Answer::Two(0, 0)),
        (Call::Safe(1300), Answer::Number(1626)),
        (Call::Safe(1000), Answer::Number(1002)),
        (Call::Safe(5000), Answer::Number(0)),
        (Call::Left(5001), refused(2, 0)),
        (take(0, 9, 20_001), refused(2, 0)),
        (give(0, 9, 100_000_001), refused(2, 0)),
        (Call::Lift(2), Answer::Number(2)),
        (Call::Row(0), Answer::Two(0, 0)),
        (Call::Left(1499), Answer::Two(14_993_000, 998_000)),
        (Call::Lift(3), refused(4, 0)),
    ]
}

fn garbled() -> Vec<(Vec<u8>, Answer)> {
    vec![
        (vec![], refused(1, 0)),
        (vec![5, 1, 0, 0, 0], refused(1, 0)),
        (vec![0, 7, 1, 0, 0, 0, 2, 0, 0, 0, 3, 0, 0, 0], refused(1, 1)),
        (vec![0, 0, 1, 0, 0, 0, 2, 0, 0], refused(1, 9)),
        (vec![2, 7, 0, 0, 0, 0], refused(1, 5)),
        (vec![4, 7], refused(1, 2)),
    ]
}

fn answered(mut serve: impl FnMut(&[u8]) -> Answer) {
    let calls = calls().into_iter().map(|(call, answer)| (call.to_bytes(), answer));
    for (bytes, answer) in calls.chain(garbled()) {
        assert_eq!(serve(&bytes), answer, "{bytes:?}");
    }
}

fn by_model<M: Model>() {
    let mut written = Written::<M>::of(Book::new(LIMIT, BOUND));
    answered(|bytes| written.answer(bytes));
}

#[test]
fn by_trying() {
    by_model::<Tries>();
}

#[test]
fn by_sorting() {
    by_model::<SortedBook>();
}

#[test]
fn by_the_session() {
    let mut words = vec![7; asked(LIMIT)];
    assert_eq!(Session.open(&mut words, LIMIT, BOUND), Opened { number: 0, place: 0 });
    answered(|bytes| {
        let mut out = [0; LENGTH];
        assert_eq!(Session.serve(&mut words, bytes, &mut out), LENGTH);
        Answer::read(&out).expect("an answer")
    });
}

/// The checks go down the list of the numbers.
#[test]
fn the_order_of_refusals() {
    let mut full = Written::<Tries>::of(Book::new(0, 9));
    let lay = |rate| Call::Lay(Rule::Take { from: 0, to: 9, rate }).to_bytes();
    assert_eq!((full.answer(&lay(20_001)), full.answer(&lay(20_000))), (refused(2, 0), refused(5, 0)));
    assert_eq!((without_book(&lay(20_001)), without_book(&[9])), (refused(3, 2), refused(1, 0)));
    let place = |words, rules, bound| opening(words, rules, bound).place;
    assert_eq!([place(0, 65, 1_000_000_001), place(0, 64, 1_000_000_001), place(2111, 64, 1_000_000_000)], [0, 1, 2]);
    assert_eq!(opening(2112, 64, 1_000_000_000), Opened { number: 0, place: 0 });
}
