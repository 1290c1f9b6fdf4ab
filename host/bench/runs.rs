//! Run files to be timed: quiet ones, and such in which f heads are struck in every round.

use crate::apart::{held, Phase};
use generator::random::Random;
use generator::ring::{has, Given, Ring};
use rules::family::Family::{self, OneRound, TwoRounds};
use rules::frames::{self, Said};
use rules::head::{FIRST_LISTENER, MOST_LISTENERS};
use rules::midpoint::LIMIT;
use rules::records;
use generator::run::{any, list, round_records, value, Lies};
use std::io::{self, Write};

#[derive(Clone, Copy, PartialEq)]
pub enum Strikes {
    Quiet,
    /// f heads in every round, each time the next f. Each tells every neighbour another position, and another list of any positions.
    Others,
    /// The same f heads in every round. They tell what Others tell.
    Same,
    /// As Others, but each tells all neighbours the same.
    Alike,
    /// As Others, but each tells every neighbour another list that is near the true one.
    Lists,
    /// As Others, but each tells every neighbour any of what a frame can say, or nothing.
    Mix,
}
use Strikes::*;

#[derive(Clone, Copy)]
pub struct Run {
    pub family: Family,
    pub n: usize,
    pub f: usize,
    pub strikes: Strikes,
    pub phases: usize,
    /// How many listeners; none of them is struck.
    pub listeners: usize,
}

/// All without listeners that are timed.
pub fn runs() -> Vec<Run> {
    let mut runs = vec![Run { family: TwoRounds, n: 1, f: 0, strikes: Quiet, phases: 30_000, listeners: 0 }];
    for (n, f, quiet, struck) in [(5, 1, 30_000, 30_000), (32, 8, 12_000, 1_000)] {
        for strikes in [Quiet, Others, Same, Alike, Lists, Mix] {
            let phases = if strikes == Quiet { quiet } else { struck };
            runs.push(Run { family: TwoRounds, n, f, strikes, phases, listeners: 0 });
        }
    }
    runs
}

/// Those with listeners, each timed beside the same run without.
pub fn with_listeners() -> [Run; 2] {
    let run = |n, f, phases| Run { family: TwoRounds, n, f, strikes: Others, phases, listeners: MOST_LISTENERS };
    [run(5, 1, 10_000), run(32, 8, 1_000)]
}

/// Those of one-round rings, each with the two-round run that it is timed beside: of the same number of phases, with the highest f that the family takes, or with
/// an f of 1.
pub fn of_one_round() -> Vec<(Run, Run)> {
    let mut pairs = Vec::new();
    for (once, twice, quiet, struck) in [((5, 1), (5, 1), 30_000, 30_000), ((29, 7), (32, 8), 6_000, 3_000)] {
        for strikes in [Quiet, Others, Mix] {
            let phases = if strikes == Quiet { quiet } else { struck };
            let run = |family, (n, f)| Run { family, n, f, strikes, phases, listeners: 0 };
            pairs.push((run(OneRound, once), run(TwoRounds, twice)));
        }
    }
    pairs
}

impl Run {
    pub fn name(&self) -> String {
        let strikes = match self.strikes {
            Quiet => "quiet",
            Others => "struck, other heads in each round",
            Same => "struck, the same heads in all rounds",
            Alike => "struck, the same told to all neighbours",
            Lists => "struck, other lists near the truth to each neighbour",
            Mix => "struck, anything to each neighbour",
        };
        let listeners = if self.listeners == 0 { String::new() } else { format!(", {} listeners", self.listeners) };
        let rounds = if self.family == OneRound { "one round, " } else { "" };
        format!("({},{}) {rounds}{strikes}{listeners}", self.n, self.f)
    }

    /// The mark word of the heads struck in a round, counted from 0.
    pub fn struck(&self, round: usize) -> u64 {
        let first = if self.strikes == Same { 0 } else { round * self.f };
        let count = if self.strikes == Quiet { 0 } else { self.f };
        (0..count).map(|i| 1 << ((first + i) % self.n)).sum()
    }

    fn positions(&self, random: &mut Random) -> Vec<i32> {
        (0..self.n).map(|_| random.between(-LIMIT, LIMIT)).collect()
    }

    /// Whether the lies keep the sound heads apart to the end. Those that tell all the same cannot: all that hear the same settle alike.
    pub fn keeps_apart(&self) -> bool {
        !matches!(self.strikes, Quiet | Alike)
    }

    /// What a struck head would say: any position or list, one near the truth, or anything. `ring` is the model of host/compare, which
    /// knows the truth.
    fn own(&self, random: &mut Random, collecting: bool, ring: Option<&Ring>) -> Given {
        match (self.strikes, ring) {
            (Mix, Some(ring)) => any(random, ring),
            (Lists, Some(ring)) if collecting => Some(Said::Position(value(random, ring))),
            (Lists, Some(ring)) => Some(list(random, ring)),
            _ if collecting => Some(Said::Position(random.between(-LIMIT, LIMIT))),
            _ => Some(Said::List(self.positions(random).into_iter().map(Some).collect())),
        }
    }

    /// What is given to each receiver by each of a round's struck heads.
    fn lies(&self, random: &mut Random, phase: &Phase, round: usize, ring: Option<&Ring>) -> Vec<(usize, usize, Given)> {
        let (struck, collecting) = (self.struck(round), round % self.family.rounds() == 0);
        let mut lies = Vec::new();
        for (at, from) in (0..self.n).filter(|&head| has(struck, head)).enumerate() {
            let mut own = self.own(random, collecting, ring);
            for to in (0..self.n).filter(|&head| !has(struck, head)).chain(FIRST_LISTENER..FIRST_LISTENER + self.listeners) {
                if self.strikes == Alike {
                    lies.push((from, to, own.clone()));
                } else {
                    lies.push((from, to, phase.lie(random, collecting, at, to, own)));
                    own = self.own(random, collecting, ring);
                }
            }
        }
        lies
    }

    /// The records of a round, and the model after it.
    fn round(&self, random: &mut Random, phase: &Phase, round: usize, ring: &mut Option<Ring>) -> Vec<u8> {
        let lies = self.lies(random, phase, round, ring.as_ref());
        if let Some(ring) = ring {
            let mut told = Lies::of(ring);
            lies.into_iter().for_each(|(from, to, given)| told.give(from, to, given));
            let round = told.round(self.struck(round));
            ring.play(&round);
            return round_records(&round, false).concat();
        }
        let number = round / self.family.rounds() + 1;
        let mut records = records::round(self.struck(round) as u32);
        for (from, to, given) in lies {
            records.extend(records::planted(from, to, &frames::write(&given.expect("something said"), from, number)));
        }
        records
    }

    /// The whole file: its length.
    pub fn write(&self, out: &mut impl Write) -> io::Result<u64> {
        let mut random = Random::new(1);
        let positions = if self.keeps_apart() { held(self, &mut random, 0)[..self.n].to_vec() } else { self.positions(&mut random) };
        let modelled = matches!(self.strikes, Lists | Mix);
        let mut ring = modelled.then(|| Ring::start(self.family == OneRound, self.f, &positions, self.listeners));
        let mut piece = records::start(self.family, self.n, self.f, &positions);
        if self.listeners > 0 {
            piece.extend(records::listeners(self.listeners));
        }
        let (mut written, rounds) = (0, self.family.rounds());
        for number in 1..=self.phases {
            let phase = Phase::new(self, &mut random, number);
            for round in rounds * (number - 1)..rounds * number {
                piece.extend(self.round(&mut random, &phase, round, &mut ring));
            }
            if piece.len() >= 1 << 16 || number == self.phases {
                out.write_all(&piece)?;
                written += piece.len() as u64;
                piece.clear();
            }
        }
        Ok(written)
    }
}
