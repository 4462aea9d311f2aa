//! The five kinds of rules, by their numbers.

/// No gross and no border is higher.
pub const MOST_GROSS: u32 = 1_000_000_000;
/// In ten-thousandths of each unit.
pub const MOST_RATE: u32 = 20_000;
/// In units.
pub const MOST_SUM: u32 = 100_000_000;
/// How many kinds there are; they are numbered from 0 on.
pub const KINDS: u8 = 5;

/// A rate is taken, or given, of what is earned above `from`, up to `to`; a sum where the gross is `from` or more and below `to`;
/// a fade is a sum, less a rate for each unit above `from`.
#[derive(Clone, Copy, Debug, PartialEq, Eq)]
pub enum Rule {
    Take { from: u32, to: u32, rate: u32 },
    Give { from: u32, to: u32, rate: u32 },
    TakeSum { from: u32, to: u32, sum: u32 },
    GiveSum { from: u32, to: u32, sum: u32 },
    Fade { from: u32, rate: u32, sum: u32 },
}

impl Rule {
    pub fn kind(self) -> u8 {
        match self {
            Self::Take { .. } => 0,
            Self::Give { .. } => 1,
            Self::TakeSum { .. } => 2,
            Self::GiveSum { .. } => 3,
            Self::Fade { .. } => 4,
        }
    }

    /// Its three numbers, in the order of its fields.
    pub fn numbers(self) -> [u32; 3] {
        match self {
            Self::Take { from, to, rate } | Self::Give { from, to, rate } => [from, to, rate],
            Self::TakeSum { from, to, sum } | Self::GiveSum { from, to, sum } => [from, to, sum],
            Self::Fade { from, rate, sum } => [from, rate, sum],
        }
    }

    /// The rule of a kind, if there is such a kind; in range or not.
    pub fn of_kind(kind: u8, [from, second, last]: [u32; 3]) -> Option<Self> {
        let (to, rate, sum) = (second, last, last);
        Some(match kind {
            0 => Self::Take { from, to, rate },
            1 => Self::Give { from, to, rate },
            2 => Self::TakeSum { from, to, sum },
            3 => Self::GiveSum { from, to, sum },
            4 => Self::Fade { from, rate: second, sum },
            _ => return None,
        })
    }

    pub fn in_range(self) -> bool {
        let borders = |from: u32, to: u32| from < to && to <= MOST_GROSS;
        match self {
            Self::Take { from, to, rate } | Self::Give { from, to, rate } => borders(from, to) && rate <= MOST_RATE,
            Self::TakeSum { from, to, sum } | Self::GiveSum { from, to, sum } => borders(from, to) && sum <= MOST_SUM,
            Self::Fade { from, rate, sum } => from <= MOST_GROSS && rate <= MOST_RATE && sum <= MOST_SUM,
        }
    }
}

#[cfg(test)]
mod tests {
    use super::*;

    #[test]
    fn a_rule_is_its_kind_and_its_numbers() {
        for kind in 0..KINDS {
            let rule = Rule::of_kind(kind, [1, 2, 3]).expect("a kind");
            assert_eq!((rule.kind(), rule.numbers()), (kind, [1, 2, 3]));
        }
        assert_eq!(Rule::of_kind(5, [1, 2, 3]), None);
    }

    #[test]
    fn the_last_in_range_and_the_first_out_of_it() {
        let fits = |kind, numbers| Rule::of_kind(kind, numbers).is_some_and(Rule::in_range);
        for kind in 0..4 {
            let most = if kind < 2 { MOST_RATE } else { MOST_SUM };
            assert!(fits(kind, [MOST_GROSS - 1, MOST_GROSS, most]));
            assert!(!fits(kind, [MOST_GROSS - 1, MOST_GROSS, most + 1]));
            assert!(!fits(kind, [0, MOST_GROSS + 1, 0]));
            assert!(!fits(kind, [7, 7, 0]));
        }
        assert!(fits(4, [MOST_GROSS, MOST_RATE, MOST_SUM]));
        assert!(!fits(4, [MOST_GROSS + 1, 0, 0]));
        assert!(!fits(4, [0, MOST_RATE + 1, 0]));
        assert!(!fits(4, [0, 0, MOST_SUM + 1]));
    }
}
