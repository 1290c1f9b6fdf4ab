//! A run as it is written, round by round, and the lies of a round.

use crate::random::Random;
use crate::ring::{has, Given, Lie, Ring, Round, LISTENER};
use rules::family::Family;
use rules::frames::Said;
use rules::midpoint::LIMIT;
use rules::records;
use crate::wire::Link;
use std::collections::BTreeMap;

/// A run as it is written: the model beside it knows the listing.
pub struct Run {
    pub ring: Ring,
    /// Whether a round without a struck listener has a record that says so.
    pub zeros: bool,
    start: Vec<u8>,
    rounds: Vec<Round>,
}

impl Run {
    pub fn new(family: Family, f: usize, positions: &[i32], listeners: usize) -> Run {
        let start = records::start(family, positions.len(), f, positions);
        Run { ring: Ring::start(family == Family::OneRound, f, positions, listeners), zeros: false, start, rounds: Vec::new() }
    }

    pub fn play(&mut self, struck: u64, lies: Lies) {
        let round = lies.round(struck);
        self.ring.play(&round);
        self.rounds.push(round);
    }

    /// The records of the run file.
    pub fn records(&self) -> Vec<Vec<u8>> {
        let mut records = vec![self.start.clone()];
        let listeners = self.ring.listeners.len();
        records.extend((listeners > 0).then(|| records::listeners(listeners)));
        records.extend(self.rounds.iter().flat_map(|round| round_records(round, self.zeros)));
        records
    }
}

/// The records of a round: its own, that of its struck listeners if there are any (or if zeros are wanted), and those of what is planted.
pub fn round_records(round: &Round, zeros: bool) -> Vec<Vec<u8>> {
    let listeners = (round.struck >> LISTENER) as u16;
    let mut records = vec![records::round(round.struck as u32)];
    records.extend((zeros || listeners != 0).then(|| records::strike(listeners)));
    records.extend(round.lies.iter().map(|((from, to), lie)| records::planted(*from, *to, &lie.bytes)));
    records
}

/// The lies of a round that is being written.
pub struct Lies {
    n: usize,
    phase: usize,
    collecting: bool,
    lies: BTreeMap<(usize, usize), Lie>,
}

impl Lies {
    pub fn of(ring: &Ring) -> Lies {
        Lies { n: ring.n, phase: ring.phase(), collecting: ring.collecting(), lies: BTreeMap::new() }
    }

    /// The round in which these heads and listeners are struck and the heads tell the lies.
    pub fn round(self, struck: u64) -> Round {
        Round { struck, lies: self.lies }
    }

    fn link(&self, from: usize) -> Link {
        Link { n: self.n, phase: self.phase, collecting: self.collecting, from }
    }

    pub fn say(&mut self, from: usize, to: usize, said: Said) {
        self.give(from, to, Some(said));
    }

    pub fn give(&mut self, from: usize, to: usize, given: Given) {
        let bytes = self.link(from).says(&given);
        self.lies.insert((from, to), Lie { bytes, given });
    }

    /// A frame that is right but for its round, which gives nothing.
    pub fn of_other_round(&mut self, random: &mut Random, from: usize, to: usize) {
        let said = self.link(from).of_other_round(random);
        let bytes = self.link(from).says(&Some(said));
        self.lies.insert((from, to), Lie { bytes, given: None });
    }

    /// A frame that says it but for one thing, and so gives nothing.
    pub fn spoil(&mut self, random: &mut Random, from: usize, to: usize, given: &Given) {
        let bytes = self.link(from).spoilt(random, given);
        self.lies.insert((from, to), Lie { bytes, given: None });
    }
}

/// A position that a lie may name.
pub fn value(random: &mut Random, ring: &Ring) -> i32 {
    let (low, high) = ring.range();
    let held: Vec<i32> = ring.positions.iter().flatten().copied().collect();
    let value = match random.below(8) {
        0 => LIMIT,
        1 => -LIMIT,
        2 => 0,
        3 => low - random.between(0, 2),
        4 => high + random.between(0, 2),
        5 => random.between(-LIMIT, LIMIT),
        _ => random.pick(&held),
    };
    value.clamp(-LIMIT, LIMIT)
}

/// A list like that of an unstruck head, with other entries for heads struck in collection, and now and then for others.
pub fn list(random: &mut Random, ring: &Ring) -> Said {
    let holders = ring.heads(|i| !ring.lists[i].is_empty());
    let mut list = ring.lists[random.pick(&holders)].clone();
    for (j, entry) in list.iter_mut().enumerate() {
        if random.chance(if has(ring.before, j) { 4 } else { 1 }, 8) {
            *entry = random.chance(3, 4).then(|| value(random, ring));
        }
    }
    Said::List(list)
}

/// Anything that a frame of this round can say.
pub fn any(random: &mut Random, ring: &Ring) -> Given {
    match (random.below(8), ring.collecting()) {
        (0, _) => None,
        (1, true) => Some(Said::Silence),
        (_, true) => Some(Said::Position(value(random, ring))),
        (1..=3, false) => Some(Said::Confession),
        _ => Some(list(random, ring)),
    }
}
