//! Calls, as bytes and as text.

use crate::rules::Rule;
use std::fmt;

#[derive(Clone, Copy, Debug, PartialEq, Eq)]
pub enum Call {
    Lay(Rule),
    Lift(u32),
    Left(u32),
    Row(u32),
    Safe(u32),
}

/// Bytes that are no call: the place of the first that doesn't fit.
#[derive(Clone, Copy, Debug, PartialEq, Eq)]
pub struct Garbled {
    pub place: u64,
}

/// A lay has its kind, that of its rule and three fields; any other call its kind and one field.
const LAY_LENGTH: usize = 14;
const LENGTH: usize = 5;

impl Call {
    pub fn to_bytes(self) -> Vec<u8> {
        let (kind, number) = match self {
            Self::Lay(rule) => {
                let fields = rule.numbers().map(u32::to_le_bytes);
                return [&[0, rule.kind()], fields.as_flattened()].concat();
            }
            Self::Lift(number) => (1, number),
            Self::Left(gross) => (2, gross),
            Self::Row(gross) => (3, gross),
            Self::Safe(gross) => (4, gross),
        };
        [&[kind], &number.to_le_bytes()[..]].concat()
    }

    /// The call that the bytes are: its kinds are looked at first, then how many bytes there are.
    pub fn read(bytes: &[u8]) -> Result<Self, Garbled> {
        let garbled = |place: usize| Err(Garbled { place: place as u64 });
        let length = match bytes {
            [0, 0..=4, ..] | [0] => LAY_LENGTH,
            [0, ..] => return garbled(1),
            [1..=4, ..] => LENGTH,
            _ => return garbled(0),
        };
        if bytes.len() != length {
            return garbled(length.min(bytes.len()));
        }
        let field = |at: usize| bytes[at..at + 4].iter().rev().fold(0, |number, &byte| number << 8 | u32::from(byte));
        Ok(match bytes[0] {
            0 => match Rule::of_kind(bytes[1], [field(2), field(6), field(10)]) {
                Some(rule) => Self::Lay(rule),
                None => return garbled(1),
            },
            1 => Self::Lift(field(1)),
            2 => Self::Left(field(1)),
            3 => Self::Row(field(1)),
            _ => Self::Safe(field(1)),
        })
    }
}

impl fmt::Display for Call {
    fn fmt(&self, f: &mut fmt::Formatter) -> fmt::Result {
        match self {
            Self::Lay(Rule::Take { from, to, rate }) => write!(f, "lay: take a rate of {rate} from {from} to {to}"),
            Self::Lay(Rule::Give { from, to, rate }) => write!(f, "lay: give a rate of {rate} from {from} to {to}"),
            Self::Lay(Rule::TakeSum { from, to, sum }) => write!(f, "lay: take a sum of {sum} from {from} to {to}"),
            Self::Lay(Rule::GiveSum { from, to, sum }) => write!(f, "lay: give a sum of {sum} from {from} to {to}"),
            Self::Lay(Rule::Fade { from, rate, sum }) => write!(f, "lay: fade a sum of {sum} at a rate of {rate} above {from}"),
            Self::Lift(number) => write!(f, "lift {number}"),
            Self::Left(gross) => write!(f, "left of {gross}"),
            Self::Row(gross) => write!(f, "row from {gross}"),
            Self::Safe(gross) => write!(f, "safe above {gross}"),
        }
    }
}

/// Bytes as text, two digits each.
pub fn hex(bytes: &[u8]) -> String {
    bytes.iter().map(|byte| format!("{byte:02x}")).collect::<Vec<_>>().join(" ")
}

#[cfg(test)]
mod tests {
    use super::*;

    fn place(bytes: &[u8]) -> Option<u64> {
        Call::read(bytes).err().map(|garbled| garbled.place)
    }

    #[test]
    fn a_call_is_read_back() {
        let rules = (0..5).filter_map(|kind| Rule::of_kind(kind, [1, 0x0203_0405, u32::MAX]));
        let others = [Call::Lift(3), Call::Left(0x0102_0304), Call::Row(u32::MAX), Call::Safe(0)];
        for call in rules.map(Call::Lay).chain(others) {
            assert_eq!(Call::read(&call.to_bytes()), Ok(call));
        }
        assert_eq!(Call::Left(0x0102_0304).to_bytes(), [2, 4, 3, 2, 1]);
    }

    /// The garbled calls of the example of the formats, and more.
    #[test]
    fn the_first_byte_that_does_not_fit() {
        let lay = |kind: u8, fields: usize| [vec![0, kind], vec![9; fields]].concat();
        assert_eq!(place(&[]), Some(0));
        assert_eq!(place(&[5, 1, 0, 0, 0]), Some(0));
        assert_eq!(place(&[0]), Some(1));
        assert_eq!(place(&lay(7, 12)), Some(1));
        assert_eq!(place(&lay(5, 0)), Some(1));
        assert_eq!(place(&lay(0, 7)), Some(9));
        assert_eq!(place(&lay(4, 12)), None);
        assert_eq!(place(&lay(4, 13)), Some(14));
        assert_eq!(place(&[2, 7, 0, 0, 0, 0]), Some(5));
        assert_eq!(place(&[4, 7]), Some(2));
        assert_eq!(place(&[4, 7, 7, 7, 7]), None);
    }
}
