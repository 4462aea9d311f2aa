//! What a model of a book answers.

use crate::rules::Rule;

/// A run of grosses that lose by earning more.
#[derive(Clone, Copy, Debug, PartialEq, Eq)]
pub struct LosingRow {
    pub first: u32,
    pub last: u32,
}

/// A model of a book of rules in range. What is asked of is at most the bound.
pub trait Model {
    fn of(rules: &[Rule], bound: u32) -> Self;

    /// What comes in, and what goes out.
    fn left(&self, gross: u32) -> (u64, u64);

    /// The first losing row from a gross on, cut there.
    fn row(&self, from: u32) -> Option<LosingRow>;

    /// The smallest larger gross from which on, up to the bound, at least as much is left.
    fn safe(&self, gross: u32) -> Option<u32>;

    /// All losing rows, from the first to the last.
    fn rows(&self) -> Vec<LosingRow>;
}

#[cfg(test)]
mod tests {
    use super::*;
    use crate::sorts::SortedBook;
    use crate::tries::Tries;

    fn take(from: u32, to: u32, rate: u32) -> Rule {
        Rule::Take { from, to, rate }
    }

    fn fade(from: u32, rate: u32, sum: u32) -> Rule {
        Rule::Fade { from, rate, sum }
    }

    fn lunch() -> Rule {
        Rule::GiveSum { from: 0, to: 1500, sum: 200 }
    }

    fn row_of(first: u32, last: u32) -> LosingRow {
        LosingRow { first, last }
    }

    fn net<M: Model>(model: &M, gross: u32) -> i64 {
        let (inflow, outflow) = model.left(gross);
        inflow as i64 - outflow as i64
    }

    /// The example of the formats: two taxes, the school lunch and the rent aid.
    fn a_family<M: Model>() {
        let rules = [take(1000, 3000, 2000), take(3000, 100_000, 4000), lunch(), fade(500, 3000, 300)];
        let model = M::of(&rules, 5000);
        assert_eq!(model.rows(), [row_of(1101, 1499)]);
        assert_eq!(model.row(0), Some(row_of(1101, 1499)));
        assert_eq!(model.row(1300), Some(row_of(1300, 1499)));
        assert_eq!(model.row(1500), None);
        let safe = [1000, 1300, 1400, 1499, 5000].map(|gross| model.safe(gross));
        assert_eq!(safe, [Some(1001), Some(1625), Some(1688), Some(1750), None]);
        let nets = [1000, 1300, 1499, 1510, 3000].map(|gross| net(&model, gross));
        assert_eq!(nets, [13_500_000, 15_000_000, 15_995_000, 14_080_000, 26_000_000]);
        let without = M::of(&[rules[0], rules[1], rules[3]], 5000);
        assert_eq!((without.row(0), net(&without, 1499)), (None, 13_995_000));
    }

    /// A fade that has 1,000 of its rate of 9,000 left at its last unit, beside a tax.
    fn a_fade_beside_a_tax<M: Model>() {
        let model = M::of(&[fade(5, 9000, 9), take(0, 100, 2000)], 40);
        assert_eq!(model.rows(), [row_of(4, 14)]);
        assert_eq!([4, 5, 6, 14, 15].map(|gross| net(&model, gross)), [122_000, 130_000, 129_000, 121_000, 120_000]);
        assert_eq!(model.safe(5), Some(17));
        let uneven = M::of(&[fade(2, 20_000, 3)], 9);
        assert_eq!([2, 3, 4, 5].map(|gross| net(&uneven, gross)), [50_000, 40_000, 40_000, 50_000]);
        assert_eq!((uneven.rows(), uneven.safe(2)), (vec![row_of(2, 2)], Some(5)));
    }

    /// Nobody loses by a tax of all of each unit; of one of more, all but its last.
    fn taxes<M: Model>() {
        let all = M::of(&[take(0, 10, 10_000)], 20);
        assert_eq!((all.rows(), all.safe(3)), (vec![], Some(4)));
        let more = M::of(&[take(0, 10, 12_000)], 20);
        assert_eq!((more.rows(), more.safe(9)), (vec![row_of(0, 9)], Some(11)));
        let double = M::of(&[take(0, 9, 20_000)], 9);
        assert_eq!((double.rows(), double.safe(0), double.safe(9)), (vec![row_of(0, 8)], None, None));
    }

    /// Two sums that end so that the parts that lose are neighbours, and a bound of 0.
    fn neighbours_and_nothing<M: Model>() {
        let give = |to, sum| Rule::GiveSum { from: 0, to, sum };
        assert_eq!(M::of(&[give(10, 3), give(12, 3)], 30).rows(), [row_of(7, 11)]);
        assert_eq!(M::of(&[give(10, 3), give(14, 3)], 30).rows(), [row_of(8, 9), row_of(12, 13)]);
        let nothing = M::of(&[give(1, 7)], 0);
        assert_eq!((nothing.left(0), nothing.rows(), nothing.safe(0)), ((70_000, 0), vec![], None));
    }

    fn worked<M: Model>() {
        a_family::<M>();
        a_fade_beside_a_tax::<M>();
        taxes::<M>();
        neighbours_and_nothing::<M>();
    }

    #[test]
    fn worked_books_by_trying() {
        worked::<Tries>();
    }

    #[test]
    fn worked_books_by_sorting() {
        worked::<SortedBook>();
    }
}
