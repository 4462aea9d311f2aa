//! Answers, as bytes and as text.

use crate::calls::hex;
use std::fmt;

/// How many bytes an answer has.
pub const LENGTH: usize = 24;

#[derive(Clone, Copy, Debug, PartialEq, Eq)]
pub enum Answer {
    Refused { number: u64, place: u64 },
    Number(u64),
    Two(u64, u64),
}

impl Answer {
    pub fn is_refused(self) -> bool {
        matches!(self, Self::Refused { .. })
    }

    pub fn to_bytes(self) -> [u8; LENGTH] {
        let words = match self {
            Self::Refused { number, place } => [0, number, place],
            Self::Number(number) => [1, number, 0],
            Self::Two(first, second) => [2, first, second],
        };
        let mut bytes = [0; LENGTH];
        bytes.copy_from_slice(words.map(u64::to_le_bytes).as_flattened());
        bytes
    }

    /// The answer that the bytes are, if they are one that can be given.
    pub fn read(bytes: &[u8; LENGTH]) -> Option<Self> {
        let (words, _) = bytes.as_chunks();
        match [words[0], words[1], words[2]].map(u64::from_le_bytes) {
            [0, 1, place] => Some(Self::Refused { number: 1, place }),
            [0, number @ (2 | 4 | 5), 0] => Some(Self::Refused { number, place: 0 }),
            [0, 3, place @ 0..=2] => Some(Self::Refused { number: 3, place }),
            [1, number, 0] => Some(Self::Number(number)),
            [2, first, second] => Some(Self::Two(first, second)),
            _ => None,
        }
    }
}

impl fmt::Display for Answer {
    fn fmt(&self, f: &mut fmt::Formatter) -> fmt::Result {
        match self {
            Self::Refused { number, place } => write!(f, "refused {number} at {place}"),
            Self::Number(number) => write!(f, "{number}"),
            Self::Two(first, second) => write!(f, "{first} and {second}"),
        }
    }
}

/// What 24 bytes answer, as text.
pub fn shown(bytes: &[u8; LENGTH]) -> String {
    Answer::read(bytes).map_or_else(|| format!("no answer, {}", hex(bytes)), |answer| answer.to_string())
}

#[cfg(test)]
mod tests {
    use super::*;

    #[test]
    fn an_answer_is_read_back_and_other_bytes_are_none() {
        let refused = Answer::Refused { number: 3, place: 2 };
        for answer in [refused, Answer::Number(u64::MAX), Answer::Two(1, 1 << 40)] {
            assert_eq!(Answer::read(&answer.to_bytes()), Some(answer));
        }
        assert_eq!(refused.to_bytes()[..9], [0, 0, 0, 0, 0, 0, 0, 0, 3]);
        assert_eq!(Answer::read(&[3; LENGTH]), None);
        assert_eq!(Answer::read(&Answer::Refused { number: 2, place: 1 }.to_bytes()), None);
    }
}
