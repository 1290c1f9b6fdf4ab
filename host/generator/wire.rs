//! What a struck head plants on a link: the frame that says something, or bytes that its receiver must refuse.

use crate::random::Random;
use crate::ring::Given;
use rules::frames::{self, Said};
use rules::records::LONGEST;
use crate::spoil;

/// Where a frame is sent: what its receiver knows of it beforehand.
#[derive(Clone, Copy)]
pub struct Link {
    pub n: usize,
    pub phase: usize,
    pub collecting: bool,
    pub from: usize,
}

impl Link {
    /// The frame that says it; no bytes for nothing.
    pub fn says(&self, given: &Given) -> Vec<u8> {
        given.as_ref().map_or(Vec::new(), |said| self.frame(said))
    }

    fn frame(&self, said: &Said) -> Vec<u8> {
        frames::write(said, self.from, self.phase)
    }

    /// Bytes that the receiver must refuse, most of them a frame that says `given` but for one thing.
    pub fn spoilt(&self, random: &mut Random, given: &Given) -> Vec<u8> {
        let said = match given {
            Some(said) => said,
            None => return Vec::new(),
        };
        let mut bytes = self.frame(said);
        match random.below(10) {
            0 => bytes = random.bytes(LONGEST),
            1 => spoil::length(random, &mut bytes),
            2 => spoil::size(random, &mut bytes),
            3 => spoil::kind(random, &mut bytes),
            4 => spoil::sender(random, &mut bytes),
            5 => spoil::phase(random, &mut bytes),
            6 => bytes = self.frame(&self.of_other_round(random)),
            _ if matches!(said, Said::Silence | Said::Confession) => bytes = self.frame(&self.of_other_round(random)),
            _ => spoil::content(random, &mut bytes),
        }
        if bytes.len() > LONGEST {
            bytes.truncate(LONGEST - 1); // not to 140, which may be the good frame again
        }
        bytes
    }

    /// What is said in the other round; in a one-round ring, in none.
    pub fn of_other_round(&self, random: &mut Random) -> Said {
        match (self.collecting, random.chance(1, 2)) {
            (true, true) => Said::List(vec![Some(0); self.n]),
            (true, false) => Said::Confession,
            (false, true) => Said::Position(0),
            (false, false) => Said::Silence,
        }
    }
}
