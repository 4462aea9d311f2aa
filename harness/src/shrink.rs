//! A failing list made short: calls are dropped as long as it still fails.

use crate::books::asked;
use crate::calls::Call;
use crate::cases::{Asked, Case, Loan, Step};
use crate::check::Fault;
use std::ops::Range;

/// The failing case without what isn't needed for it to fail, and how it then fails.
pub fn shrink(case: Case, fault: Fault, fails: impl FnMut(&Case) -> Option<Fault>) -> (Case, Fault) {
    let mut shrinking = Shrinking { case, fault, fails };
    shrinking.end_at_the_fault();
    shrinking.name_the_call();
    while shrinking.drop_steps() {}
    let loan = Loan { fill: None, ..shrinking.case.loan };
    shrinking.take_if_it_fails(Case { loan, ..shrinking.case.clone() });
    (shrinking.case, shrinking.fault)
}

fn call(step: &Step) -> Option<Call> {
    match step {
        Step::Serve(asked) => Call::read(&asked.bytes).ok(),
        Step::Every | Step::Rows => None,
    }
}

/// The step with a number that is less by so much, if it is a lift.
fn lifting_less(step: &Step, less: u32) -> Step {
    match (step, call(step)) {
        (Step::Serve(Asked { room, .. }), Some(Call::Lift(number))) => {
            let bytes = Call::Lift(number.saturating_sub(less)).to_bytes();
            Step::Serve(Asked { bytes, room: *room })
        }
        _ => step.clone(),
    }
}

/// The case with a lower limit, and as many words more than are asked for as before.
fn with_less_room(case: Case, less: u32) -> Case {
    let limit = case.limit.saturating_sub(less);
    let words = case.loan.words + asked(limit) - asked(case.limit);
    Case { limit, loan: Loan { words, ..case.loan }, ..case }
}

/// The case without some steps: as it is, or so that later lifts or a limit still meet the rules that are left.
fn without(case: &Case, steps: Range<usize>) -> [Case; 4] {
    let lays = case.steps[steps.clone()].iter().filter(|step| matches!(call(step), Some(Call::Lay(_)))).count() as u32;
    let (before, after) = (&case.steps[..steps.start], &case.steps[steps.end..]);
    let lifting: Vec<_> = after.iter().map(|step| lifting_less(step, lays)).collect();
    let plain = Case { steps: [before, after].concat(), ..case.clone() };
    let lower = Case { steps: [before, &lifting].concat(), ..case.clone() };
    [plain.clone(), lower.clone(), with_less_room(plain, lays), with_less_room(lower, lays)]
}

struct Shrinking<F> {
    case: Case,
    fault: Fault,
    fails: F,
}

impl<F: FnMut(&Case) -> Option<Fault>> Shrinking<F> {
    fn take_if_it_fails(&mut self, case: Case) -> bool {
        let Some(fault) = (self.fails)(&case) else {
            return false;
        };
        (self.case, self.fault) = (case, fault);
        self.end_at_the_fault();
        true
    }

    fn end_at_the_fault(&mut self) {
        self.case.steps.truncate(self.fault.step + 1);
    }

    /// Of a last step with many calls only the one that differs, if that is enough.
    fn name_the_call(&mut self) {
        if let (Some(asked), Some(Step::Every | Step::Rows)) = (self.fault.asked.clone(), self.case.steps.last()) {
            let mut case = self.case.clone();
            case.steps.pop();
            case.steps.push(Step::Serve(asked));
            self.take_if_it_fails(case);
        }
    }

    /// Drops what it can, in ever smaller parts; says whether it dropped any.
    fn drop_steps(&mut self) -> bool {
        let before = self.case.steps.len();
        let mut size = before.div_ceil(2);
        while size > 0 {
            let mut at = 0;
            while at < self.case.steps.len() {
                let end = (at + size).min(self.case.steps.len());
                if !without(&self.case, at..end).into_iter().any(|case| self.take_if_it_fails(case)) {
                    at += size;
                }
            }
            size = if size == 1 { 0 } else { size.div_ceil(2) };
        }
        self.case.steps.len() < before
    }
}

#[cfg(test)]
mod tests {
    use super::*;
    use crate::calls::Call;
    use crate::check::Difference;
    use crate::memory::Side;

    fn case(steps: Vec<Step>) -> Case {
        let loan = Loan { words: 64, side: Side::Upper, fill: None };
        Case { limit: 0, bound: 9, loan, steps }
    }

    fn left(gross: u32) -> Step {
        Step::Serve(Asked::call(Call::Left(gross)))
    }

    fn fault(step: usize, asked: Asked) -> Fault {
        Fault { step, asked: Some(asked), difference: Difference::Count { told: 1, must: 24 } }
    }

    /// Fails at a row, asked by itself or of every gross, once `left` was asked of 3 and of 7.
    fn fails(case: &Case) -> Option<Fault> {
        let at = |wanted: &Step| case.steps.iter().position(|step| step == wanted);
        let row = Asked::call(Call::Row(0));
        let is_row = |step: &Step| matches!(step, Step::Every) || *step == Step::Serve(row.clone());
        let before = at(&left(3))?.max(at(&left(7))?);
        let step = (before..case.steps.len()).find(|&at| is_row(&case.steps[at]))?;
        Some(fault(step, row.clone()))
    }

    #[test]
    fn only_what_is_needed_stays() {
        let mut steps: Vec<Step> = (0..9).map(left).collect();
        steps.extend([Step::Rows, Step::Every, left(1), Step::Every]);
        let first = fails(&case(steps.clone())).expect("it fails");
        let (short, fault) = shrink(case(steps), first, fails);
        let row = Step::Serve(Asked::call(Call::Row(0)));
        assert_eq!((short.steps, fault.step), (vec![left(3), left(7), row], 2));
    }

    #[test]
    fn where_the_opening_fails_no_call_stays() {
        let difference = Difference::Count { told: 1, must: 24 };
        let opening = |_: &Case| Some(Fault { step: 0, asked: None, difference: difference.clone() });
        let case = case(vec![left(1), left(2)]);
        let first = opening(&case).expect("it fails");
        assert_eq!(shrink(case, first, opening).0.steps, []);
    }
}
