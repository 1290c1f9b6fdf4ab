//! Run files that are not right: with one fault whose number is known, or damaged in any way.

use generator::random::Random;
use generator::ring::{has, marks, LISTENER};
use rules::family::Family::{self, OneRound, TwoRounds};
use rules::frames::{half, word};
use rules::head::MOST_LISTENERS;
use rules::records::{self, fitted, LISTENERS, PLANTED, ROUND, START, START_ONE, STRIKE};
use generator::spoil::out_of_range;

pub type Records = Vec<Vec<u8>>;

/// The right records of a run, to be spoilt.
pub struct Right {
    pub family: Family,
    pub n: usize,
    pub f: usize,
    pub listeners: usize,
    pub records: Records,
}

/// Records of which the first `sound` are right, and the number of the fault that follows them.
pub struct Faulty {
    pub records: Records,
    pub sound: usize,
    pub number: u8,
}

impl Right {
    /// Where a round begins and where it ends; now and then, a place past the end.
    fn round(&self, random: &mut Random) -> (usize, usize) {
        let is_round = |&i: &usize| half(&self.records[i], 2) == ROUND;
        let end = self.records.len();
        let places: Vec<usize> = (0..end).filter(is_round).collect();
        if places.is_empty() || random.chance(1, 8) {
            return (end, end);
        }
        let at = random.pick(&places);
        (at, (at + 1..end).find(is_round).unwrap_or(end))
    }

    /// The records before `at`, then others, of which the last is at fault, then those from `rest` on. A player that misses the fault finds the
    /// rest right.
    fn with(&self, at: usize, others: Records, rest: usize, number: u8) -> Faulty {
        let sound = at + others.len().saturating_sub(1);
        let rest = self.records.get(rest..).unwrap_or_default();
        Faulty { records: [&self.records[..at], &others, rest].concat(), sound, number }
    }

    /// How many records stand before the first round.
    fn front(&self) -> usize {
        1 + (self.listeners > 0) as usize
    }

    pub fn start_fault(&self, random: &mut Random) -> Faulty {
        let mut record = self.records[0].clone();
        let number = match random.below(7) {
            0 => {
                record[4] ^= 1 << random.below(8);
                13
            }
            1 => {
                record.resize(4 + random.below(2 * record.len()), 0);
                record.extend(if record.len() == self.records[0].len() { &[0][..] } else { &[] });
                13
            }
            2 => {
                let n = random.pick(&[0, 33, 33, 34, 64, 255]);
                let f = random.pick(&[0, self.f, 255]);
                record = records::start(self.family, n, f, &vec![random.pick(&[0, i32::MAX]); n]);
                1
            }
            3 | 4 => {
                let least = self.family.highest_limit(self.n) + 1;
                // 7f + 2 or 4f + 1 is small again in 8 bits
                let (small, number) = match self.family {
                    TwoRounds => ([37, 73, 110, 147], 2),
                    OneRound => ([64, 65, 128, 192], 18),
                };
                if self.family == OneRound && random.chance(1, 2) {
                    let f = 1 + random.below(8);
                    let positions = random.pick(&[0, 0, i32::MAX]);
                    return self.with(0, vec![records::start(OneRound, 4 * f, f, &vec![positions; 4 * f])], 1, 18);
                }
                let limits = [&[least, least, least + 1, 255], &small[..]].concat();
                record[5] = random.pick(&limits).max(least) as u8;
                if random.chance(1, 3) {
                    record[6..10].copy_from_slice(&out_of_range(random).to_le_bytes());
                }
                number
            }
            _ => {
                let at = 6 + 4 * random.below(self.n);
                record[at..at + 4].copy_from_slice(&out_of_range(random).to_le_bytes());
                4
            }
        };
        self.with(0, vec![fitted(record)], 1, number)
    }

    pub fn round_fault(&self, random: &mut Random) -> Faulty {
        let (at, end) = self.round(random);
        let count = self.f + 1 + random.below(self.n - self.f);
        let many = marks(&random.some(&(0..self.n).collect::<Vec<_>>(), count)) as u32;
        let (record, number) = match random.below(4) {
            0 => {
                let length = random.pick(&[4, 5, 6, 7, 9, 10, 12, 40]);
                let mut record = records::round(random.pick(&[0, many, u32::MAX]));
                record.resize(length, 0);
                (fitted(record), 13)
            }
            1 if self.n < 32 => (records::round(1 << (self.n + random.below(32 - self.n))), 14), // with listeners too
            2 if self.n < 32 => (records::round(u32::MAX << self.n), 14),
            _ => (records::round(many), 14),
        };
        self.with(at, vec![record], end, number)
    }

    /// A number of listeners that is wrong, of wrong length, or out of place.
    pub fn listeners_fault(&self, random: &mut Random) -> Faulty {
        let right = records::listeners(1 + random.below(MOST_LISTENERS));
        let (front, end) = (self.front(), self.records.len());
        match random.below(7) {
            0 | 1 => self.with(1, vec![records::listeners(random.pick(&[0, 0, 17, 17, 18, 32, 64, 255]))], front, 13),
            2 => {
                let length = random.pick(&[0, 2, 2, 3, 4, 32]);
                self.with(1, vec![records::record(LISTENERS, &vec![random.pick(&[0, 1, 16]); length])], front, 13)
            }
            3 => self.with(0, vec![right], random.below(2), 13),
            4 | 5 if front < end => {
                let at = front + 1 + random.below(end - front);
                self.with(at, vec![right], at, 13)
            }
            _ => self.with(1, vec![records::listeners(self.listeners.max(1)), right], front, 13),
        }
    }

    /// Struck listeners that are not there, or a record of them of wrong length or out of place.
    pub fn strike_fault(&self, random: &mut Random) -> Faulty {
        let (at, end) = self.round(random);
        let there = (1u32 << self.listeners) - 1;
        let (zeros, allowed) = (records::strike(0), records::strike(random.next() as u16 & there as u16));
        let mut others = vec![records::round(0)];
        match random.below(9) {
            0 | 1 if self.listeners < MOST_LISTENERS => {
                let next = random.chance(1, 2);
                let absent = self.listeners + if next { 0 } else { random.below(MOST_LISTENERS - self.listeners) };
                others.push(records::strike(1 << absent | random.pick(&[0, there as u16])));
            }
            2 if self.listeners < MOST_LISTENERS => others.push(records::strike(random.pick(&[u16::MAX, !there as u16, 1 << 15]))),
            3 => others.push(records::record(STRIKE, &vec![0; random.pick(&[0, 1, 3, 3, 4, 4, 252])])),
            4 => {
                let place = random.pick(&[1, self.front()]);
                return self.with(place, vec![random.pick(&[&zeros, &allowed]).clone()], place, 13);
            }
            5 => return self.with(0, vec![zeros], random.below(2), 13),
            6 | 7 if self.f > 0 => {
                others = vec![records::round(1)];
                others.extend(random.chance(1, 2).then(|| allowed.clone()));
                others.extend([records::planted(0, 1, &[]), random.pick(&[&zeros, &allowed]).clone()]);
            }
            _ => others.extend([allowed.clone(), random.pick(&[&zeros, &allowed]).clone()]),
        }
        self.with(at, others, end, 13)
    }

    /// It needs f of 1 or more.
    pub fn planted_fault(&self, random: &mut Random) -> Faulty {
        let (at, end) = self.round(random);
        let all: Vec<usize> = (0..self.n).collect();
        let count = 1 + random.below(self.f);
        let struck = random.some(&all, count);
        let mut free: Vec<usize> = all.into_iter().filter(|i| !struck.contains(i)).collect();
        let before = self.struck_before(at);
        free.sort_by_key(|&i| !has(before, i)); // first those that were struck in the round before
        let silent = random.below(self.listeners + 1);
        let all = random.some(&(LISTENER..LISTENER + self.listeners).collect::<Vec<_>>(), self.listeners);
        let (silenced, listening) = all.split_at(silent);
        let planted = if self.listeners > 0 && random.chance(1, 2) {
            bad_listener_pairs(random, &struck, &free, silenced, listening)
        } else {
            bad_pairs(random, (self.n, self.listeners), &struck, &free)
        };
        if random.chance(1, 16) {
            let place = random.pick(&[1, self.front()]);
            return self.with(place, vec![records::planted(struck[0], random.pick(&[free[0], LISTENER]), &[])], place, 13);
        }
        let mut others = vec![records::round(marks(&struck) as u32)];
        let word = (marks(silenced) >> LISTENER) as u16;
        others.extend((word != 0 || random.chance(1, 4)).then(|| records::strike(word)));
        others.extend(planted);
        self.with(at, others, end, 13)
    }

    /// The mark word of the last round record before `at`.
    fn struck_before(&self, at: usize) -> u64 {
        let last = self.records[..at].iter().rev().find(|record| half(record, 2) == ROUND);
        last.map_or(0, |record| word(record, 4) as u64)
    }

    /// A record of no right form, anywhere.
    pub fn form_fault(&self, random: &mut Random) -> Faulty {
        let at = random.below(self.records.len() + 1);
        let mut record = if at == 0 || random.chance(1, 3) { self.records[0].clone() } else { records::round(0) };
        match random.below(4) {
            0 => record[..2].copy_from_slice(&[random.below(4) as u8, 0]),
            1 if at > 0 => record = self.other_start(random),
            2 => {
                record[1] = 0xff;
                return self.with(at, vec![record], usize::MAX, 13);
            }
            _ => {
                let kinds = [0, 1, 2, 3, 4, 0x13, 0x15, 0x16, 0x110, 0x114, 0x111, 0x112, 0x1000, 0x8011, 0xffff];
                record[2..4].copy_from_slice(&random.pick::<u16>(&kinds).to_le_bytes());
            }
        }
        self.with(at, vec![record], at, 13)
    }

    /// A start record of either family, for a place where none may stand.
    fn other_start(&self, random: &mut Random) -> Vec<u8> {
        let mut start = random.pick(&[&self.records[0], &records::start(self.family, 0, 0, &[])]).clone();
        start[2] = random.pick(&[START, START_ONE]) as u8;
        start
    }

    /// A file that ends too early or too late.
    pub fn ending_fault(&self, random: &mut Random) -> Faulty {
        let length = self.records.len();
        match random.below(if self.family == OneRound { 4 } else { 6 }) {
            0 => self.with(0, Vec::new(), usize::MAX, 13),
            1 => self.with(0, Vec::new(), 1, 13),
            2 => {
                let count = 1 + random.below(3);
                self.with(length, vec![records::round(0)[..count].to_vec()], usize::MAX, 13)
            }
            3 => {
                let at = random.below(length);
                let cut = 1 + random.below(self.records[at].len() - 1);
                self.with(at, vec![self.records[at][..cut].to_vec()], usize::MAX, 13)
            }
            _ => self.inside_phase(random),
        }
    }

    /// A one-round phase has no inside.
    fn inside_phase(&self, random: &mut Random) -> Faulty {
        let rounds = |end: usize| self.records[..end].iter().filter(|record| half(record, 2) == ROUND).count();
        let inside: Vec<usize> = (0..self.records.len()).filter(|&end| rounds(end) % 2 == 1).collect();
        if inside.is_empty() {
            let mut all = self.with(self.records.len(), vec![records::round(0)], usize::MAX, 13);
            all.sound += 1;
            return all;
        }
        self.with(random.pick(&inside), Vec::new(), usize::MAX, 13)
    }
}

/// A number that no head and no listener has.
fn absent(random: &mut Random, n: usize, listeners: usize, other: usize) -> usize {
    let none = |number: &usize| *number >= n && !(LISTENER..LISTENER + listeners).contains(number);
    let candidates = [n, n, 31, LISTENER + other, LISTENER + listeners, LISTENER + listeners, 47, 48, 64 + other, 255];
    random.pick(&candidates.into_iter().filter(none).collect::<Vec<_>>())
}

/// Planted records, the last of which is against the rule.
fn bad_pairs(random: &mut Random, (n, listeners): (usize, usize), struck: &[usize], free: &[usize]) -> Records {
    let (from, to) = (random.pick(struck), random.pick(free));
    let (low, high) = (to.min(free[0]), to.max(free[0]));
    let count = random.below(12);
    let body = random.bytes(count);
    let plant = |from: usize, to: usize| records::planted(from, to, &body);
    match random.below(10) {
        0 | 1 => vec![plant(free[0], free[1 + random.below(free.len() - 1)])],
        2 => vec![plant(from, random.pick(struck))],
        3 => vec![plant(random.pick(&[n, 255, 32 + from, 64 + from]), to)],
        4 => vec![plant(from, absent(random, n, listeners, to))],
        5 => vec![plant(from, to), plant(from, to)],
        6 if low < high => vec![plant(from, high), plant(from, low)],
        7 if from != struck[0] => vec![plant(from.max(struck[0]), low), plant(from.min(struck[0]), high)],
        8 => vec![records::record(PLANTED, &[from as u8][..random.below(2)])],
        _ => vec![records::planted(from, to, &vec![random.below(256) as u8; random.pick(&[141, 142, 144, 256, 5000])])],
    }
}

/// Planted records, the last of which is against the rule by a listener: `silenced` ones are struck, `listening` ones are not.
fn bad_listener_pairs(random: &mut Random, struck: &[usize], free: &[usize], silenced: &[usize], listening: &[usize]) -> Records {
    let (from, to) = (random.pick(struck), random.pick(free));
    let plant = |from: usize, to: usize| records::planted(from, to, &[]);
    let sender = random.pick(&[silenced, listening].concat());
    let some = random.some(listening, 2);
    let (low, high) = (struck.iter().min().copied().unwrap_or(from), struck.iter().max().copied().unwrap_or(from));
    match random.below(7) {
        0 | 1 if !silenced.is_empty() => vec![plant(from, random.pick(silenced))],
        2 if !some.is_empty() => vec![plant(from, some[0]), plant(from, to)],
        3 if !some.is_empty() => vec![plant(from, some[0]), plant(from, some[0])],
        4 if some.len() == 2 => vec![plant(from, some[0].max(some[1])), plant(from, some[0].min(some[1]))],
        5 if !some.is_empty() && low < high => vec![plant(high, to), plant(low, some[0])],
        6 if !some.is_empty() => vec![plant(from, to), plant(sender, some[0])],
        _ => vec![plant(from, to), plant(sender, to)],
    }
}

/// Damage of any kind; what a player makes of it is not foretold.
pub fn damaged(random: &mut Random, mut records: Records) -> Vec<u8> {
    let (at, other) = (random.below(records.len()), random.below(records.len()));
    match random.below(10) {
        0 => records.swap(at, other),
        1 => drop(records.remove(at)),
        2 => records.insert(other, records[at].clone()),
        3 => {
            let moved = records.remove(at);
            records.insert(other, moved);
        }
        4 => records.truncate(at + 1),
        5 => {
            let (kind, right) = random.pick(&[(START, 26), (START_ONE, 26), (ROUND, 4), (PLANTED, 2), (STRIKE, 2), (LISTENERS, 1)]);
            let length = if random.chance(1, 2) { right } else { random.below(20) };
            let mut body = random.bytes(length);
            body.iter_mut().for_each(|byte| *byte &= random.pick(&[0, 1, 3, 0xff]));
            records.insert(at, records::record(kind, &body));
        }
        _ => return shaken(random, records.concat()),
    }
    records.concat()
}

fn shaken(random: &mut Random, mut bytes: Vec<u8>) -> Vec<u8> {
    let at = random.below(bytes.len());
    let count = 1 + random.below(8);
    match random.below(8) {
        0 => bytes.truncate(at),
        1 => drop(bytes.drain(at..bytes.len().min(at + count))),
        2 => drop(bytes.splice(at..at, random.bytes(count))),
        3 => bytes = random.bytes(at),
        _ => {
            for _ in 0..1 + random.below(3) {
                let at = random.below(bytes.len());
                bytes[at] ^= 1 << random.below(8);
            }
        }
    }
    bytes
}
