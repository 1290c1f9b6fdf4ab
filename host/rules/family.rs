//! The two families of rings: a phase has two rounds, or one (document 02, A9).

#[derive(Clone, Copy, PartialEq, Debug)]
pub enum Family {
    TwoRounds,
    OneRound,
}
use Family::*;

impl Family {
    /// 1, then 2, or 18 in its place.
    pub fn size(self, n: usize, f: usize) -> Result<(), u8> {
        if !(1..=32).contains(&n) {
            return Err(1);
        }
        match self {
            TwoRounds if 2 * n < 7 * f + 2 => Err(2),
            OneRound if n < 4 * f + 1 => Err(18),
            _ => Ok(()),
        }
    }

    /// The highest struck limit that n heads allow.
    pub fn highest_limit(self, n: usize) -> usize {
        match self {
            TwoRounds => (2 * n - 2) / 7,
            OneRound => (n - 1) / 4,
        }
    }

    /// How many rounds a phase has.
    pub fn rounds(self) -> usize {
        match self {
            TwoRounds => 2,
            OneRound => 1,
        }
    }
}
