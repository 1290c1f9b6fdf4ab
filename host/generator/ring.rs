//! The model: a ring as documents 01 and 02 have it, without a byte. What a struck head does is, for each neighbour, what that neighbour makes of it. Of
//! host/plain it shares what a frame can say, and no rule. Listeners (document 02, A6) are numbered from 32; they settle as heads do and say nothing. In a
//! one-round ring (A9) each round is a phase.

use rules::frames::Said;
use rules::midpoint::Entry;
use std::collections::BTreeMap;

/// What a link gives to one receiver in a round, or nothing.
pub type Given = Option<Said>;

/// Bytes planted on one link, and what their receiver makes of them.
#[derive(Clone)]
pub struct Lie {
    pub bytes: Vec<u8>,
    pub given: Given,
}

/// The first listener's number.
pub const LISTENER: usize = 32;

/// A round: the marks of its struck heads and, from bit 32 on, of its struck listeners; and what these heads send, by sender and receiver.
pub struct Round {
    pub struck: u64,
    pub lies: BTreeMap<(usize, usize), Lie>,
}

pub fn has(marks: u64, head: usize) -> bool {
    marks >> head & 1 == 1
}

pub fn marks(heads: &[usize]) -> u64 {
    heads.iter().fold(0, |word, head| word | 1 << head)
}

pub struct Ring {
    pub one_round: bool,
    pub n: usize,
    pub f: usize,
    /// None if the memory was lost.
    pub positions: Vec<Entry>,
    pub lists: Vec<Vec<Entry>>,
    /// The listeners' positions: none before the first phase end, or if the memory was lost.
    pub listeners: Vec<Entry>,
    /// The heads and listeners struck in the round before.
    pub before: u64,
    /// How many rounds were played.
    pub rounds: usize,
    /// The lines of the listing, from line 0.
    pub lines: Vec<String>,
}

impl Ring {
    pub fn start(one_round: bool, f: usize, positions: &[i32], listeners: usize) -> Ring {
        let n = positions.len();
        let positions = positions.iter().copied().map(Some).collect();
        let (lists, listeners) = (vec![Vec::new(); n], vec![None; listeners]);
        let mut ring = Ring { one_round, n, f, positions, lists, listeners, before: 0, rounds: 0, lines: Vec::new() };
        ring.print(0, 0);
        ring
    }

    /// How many rounds a phase has.
    pub fn phase_rounds(&self) -> usize {
        if self.one_round { 1 } else { 2 }
    }

    /// The phase that the next round belongs to.
    pub fn phase(&self) -> usize {
        self.rounds / self.phase_rounds() + 1
    }

    /// Whether positions are sent in the next round, and not lists.
    pub fn collecting(&self) -> bool {
        self.one_round || self.rounds % 2 == 0
    }

    /// Whether the next round ends its phase.
    fn ends(&self) -> bool {
        self.one_round || self.rounds % 2 == 1
    }

    pub fn heads(&self, wanted: impl Fn(usize) -> bool) -> Vec<usize> {
        (0..self.n).filter(|&i| wanted(i)).collect()
    }

    /// The numbers of the heads and listeners that are wanted, heads first.
    pub fn receivers(&self, wanted: impl Fn(usize) -> bool) -> Vec<usize> {
        (0..self.n).chain(self.listening()).filter(|&i| wanted(i)).collect()
    }

    /// The listeners' numbers.
    pub fn listening(&self) -> std::ops::Range<usize> {
        LISTENER..LISTENER + self.listeners.len()
    }

    pub fn play(&mut self, round: &Round) {
        let said: Vec<Given> = (0..self.n).map(|i| self.says(i, round)).collect();
        let ends = self.ends();
        for i in 0..self.n {
            if has(round.struck, i) {
                self.positions[i] = None;
                self.lists[i].clear();
                continue;
            }
            let heard = self.heard(i, &said, round);
            if ends {
                self.positions[i] = Some(self.settled(&heard));
            } else {
                self.lists[i] = heard.iter().map(position).collect();
            }
        }
        // What a listener hears in a collection round, which ends no phase, is never asked for.
        for i in self.listening() {
            if has(round.struck, i) {
                self.listeners[i - LISTENER] = None;
            } else if ends {
                self.listeners[i - LISTENER] = Some(self.settled(&self.heard(i, &said, round)));
            }
        }
        self.rounds += 1;
        if ends && self.one_round {
            self.print(round.struck, 0);
        } else if ends {
            self.print(self.before, round.struck);
        }
        self.before = round.struck;
    }

    /// What each link gives to head or listener i.
    fn heard<'a>(&self, i: usize, said: &'a [Given], round: &'a Round) -> Vec<&'a Given> {
        (0..self.n).map(|k| round.lies.get(&(k, i)).map_or(&said[k], |lie| &lie.given)).collect()
    }

    /// What head i sends to all; a struck one sends only its lies.
    fn says(&self, i: usize, round: &Round) -> Given {
        let healed = has(self.before, i);
        match (self.collecting(), healed) {
            _ if has(round.struck, i) => None,
            (true, true) => Some(Said::Silence),
            (true, false) => Some(Said::Position(self.positions[i].expect("a healthy head holds a position"))),
            (false, true) => Some(Said::Confession),
            (false, false) => Some(Said::List(self.lists[i].clone())),
        }
    }

    fn settled(&self, heard: &[&Given]) -> i32 {
        let mut kept: Vec<i32> = match self.one_round {
            true => heard.iter().filter_map(position).collect(),
            false => (0..self.n).filter_map(|j| self.trusted(j, heard)).collect(),
        };
        let (nulls, f) = (self.n - kept.len(), self.f);
        assert!(nulls <= if self.one_round { 2 * f } else { 3 * f }, "too many nulls with at most f struck in a round");
        let trim = if self.one_round || nulls <= f { f } else { (3 * f - nulls + 1) / 2 };
        kept.sort_unstable();
        (kept[trim] + kept[kept.len() - 1 - trim] + (self.phase() % 2 == 0) as i32) >> 1
    }

    /// The only position with support n - f, if link j has not confessed.
    fn trusted(&self, j: usize, heard: &[&Given]) -> Entry {
        if matches!(heard[j], Some(Said::Confession)) {
            return None;
        }
        let mut confessed = 0;
        let mut named: Vec<(i32, usize)> = Vec::new();
        for given in heard {
            match given {
                Some(Said::Confession) => confessed += 1,
                Some(Said::List(list)) => list[j].into_iter().for_each(|u| match named.iter_mut().find(|name| name.0 == u) {
                    Some(name) => name.1 += 1,
                    None => named.push((u, 1)),
                }),
                _ => {}
            }
        }
        assert!(confessed < self.n - self.f, "n - f confessions with at most f struck in a round");
        let mut reach = named.iter().filter(|name| name.1 + confessed >= self.n - self.f);
        reach.next().filter(|_| reach.next().is_none()).map(|name| name.0)
    }

    /// The line of the phase that has just ended. The mark words are those of heads alone.
    fn print(&mut self, collect: u64, confess: u64) {
        let (low, high) = self.range();
        let (collect, confess) = (collect as u32, confess as u32);
        self.lines.push(format!("{} {low} {high} {} {collect:08x} {confess:08x}\n", self.phase() - 1, high - low));
    }

    /// The lowest and the highest position held, by heads and listeners.
    pub fn range(&self) -> (i32, i32) {
        let held = self.positions.iter().chain(&self.listeners).flatten();
        (*held.clone().min().expect("a sound head"), *held.max().expect("a sound head"))
    }
}

fn position(given: &&Given) -> Entry {
    if let Some(Said::Position(v)) = given { Some(*v) } else { None }
}
