//! Lies that keep the sound heads of a ring one step apart, phase after phase. By demand 3 no lies do more for long: the spread halves,
//! rounded up.
//!
//! Between phases a sound head holds LOW or LOW + 1. Half of an odd sum is rounded down in odd phases and up in even ones. The position
//! that it is rounded to is the phase's rare one, since few heads hold it as the phase begins; the other one is common. A receiver that
//! keeps both settles on the rare one, and one that keeps the common one alone on that. So the struck heads decide what each receiver
//! holds next:
//! - The heads struck in confession, if others were struck in collection, hold the common position, and some of them confess to a
//!   receiver. Then their entries are null, and with more nulls fewer entries are dropped: the receiver keeps the rare position. In
//!   phase 1, with fewer nulls, these heads hold the rare one, and a receiver to which they confess does not keep it.
//! - If the same heads are struck in all rounds, some of them tell most heads one position, beyond the rare one. Their lists support it
//!   to a receiver that is to keep the rare position: it is trusted, and dropped in place of that.
//! - In a one-round ring they tell a receiver positions beyond the rare one, or none of these.

use generator::random::Random;
use generator::ring::{has, Given};
use rules::family::Family::{OneRound, TwoRounds};
use rules::frames::Said;
use rules::head::{FIRST_LISTENER, MOST_LISTENERS};
use rules::midpoint::LIMIT;
use crate::runs::{Run, Strikes::Same};

const LOW: i32 = 1_000;

fn rare(phase: usize) -> i32 {
    if phase % 2 == 1 { LOW } else { LOW + 1 }
}

/// A position beyond LOW or LOW + 1, seen from the other.
fn beyond(random: &mut Random, end: i32) -> i32 {
    if end == LOW { random.between(-LIMIT, LOW - 1) } else { random.between(LOW + 2, LIMIT) }
}

/// How many of the f struck heads it takes to decide what a receiver keeps.
fn deciding(f: usize) -> usize {
    (f + 3) / 4
}

pub struct Phase<'a> {
    run: &'a Run,
    number: usize,
    /// What each head and listener is to hold at the end, by its number.
    wanted: Vec<i32>,
    /// If the same heads are struck in all rounds: what the deciding ones tell, and whom they tell something else.
    told: Vec<i32>,
    others: Vec<usize>,
}

/// What heads and listeners are to hold at a phase end, 0 for the start: those of the next phase's rare position are few among the heads
/// that speak in it. What its first struck heads hold is never heard.
pub fn held(run: &Run, random: &mut Random, end: usize) -> Vec<i32> {
    let (next, rounds, f) = (end + 1, run.family.rounds(), run.f);
    let before = if end == 0 { 0 } else { run.struck(rounds * end - 1) };
    let (first, last) = (run.struck(rounds * end), run.struck(rounds * next - 1));
    let mut deciding_are_rare = 0;
    let count = match run.strikes {
        Same => f,
        _ if end == 0 && run.family == TwoRounds => {
            deciding_are_rare = deciding(f);
            f + 1 - deciding(f)
        }
        _ => (f + 1) / 2,
    };
    let speak = (0..run.n).filter(|&head| !has(before | first, head) && (run.strikes == Same || !has(last, head)));
    let few = random.some(&speak.collect::<Vec<_>>(), count);
    let decide: Vec<usize> = (0..run.n).filter(|&head| has(last, head)).take(deciding_are_rare).collect();
    let is_rare = |i: usize| few.contains(&i) || decide.contains(&i) || has(first, i) || i >= FIRST_LISTENER && i % 2 == 0;
    (0..FIRST_LISTENER + MOST_LISTENERS).map(|i| rare(if is_rare(i) { next } else { next + 1 })).collect()
}

impl<'a> Phase<'a> {
    pub fn new(run: &'a Run, random: &mut Random, number: usize) -> Phase<'a> {
        let unstruck: Vec<usize> = (0..run.n).filter(|&head| !has(run.struck(0), head)).collect();
        let told = (0..deciding(run.f)).map(|_| beyond(random, rare(number))).collect();
        Phase { run, number, wanted: held(run, random, number), told, others: random.some(&unstruck, run.f) }
    }

    /// What the struck head at a place among those of a round gives to a receiver, that would give it `own`.
    pub fn lie(&self, random: &mut Random, collecting: bool, at: usize, to: usize, own: Given) -> Given {
        let to_rare = self.wanted[to] == rare(self.number);
        match (self.run.family, self.run.strikes) {
            (OneRound, _) => self.in_one_round(random, at, to_rare, own),
            (TwoRounds, Same) if collecting => self.told.get(at).filter(|_| !self.others.contains(&to)).map(|&v| Said::Position(v)).or(own),
            (TwoRounds, Same) if to_rare => self.supporting(own),
            (TwoRounds, Same) => own,
            _ if collecting => own,
            _ if at < deciding(self.run.f) && to_rare == (self.number > 1) => Some(Said::Confession),
            _ => own.filter(|said| !matches!(said, Said::Confession)),
        }
    }

    /// The list with the positions that were told.
    fn supporting(&self, own: Given) -> Given {
        own.map(|said| match said {
            Said::List(mut list) => {
                list.iter_mut().zip(&self.told).for_each(|(entry, &told)| *entry = Some(told));
                Said::List(list)
            }
            said => said,
        })
    }

    fn in_one_round(&self, random: &mut Random, at: usize, to_rare: bool, own: Given) -> Given {
        let (f, rare, common) = (self.run.f, rare(self.number), rare(self.number + 1));
        match own {
            _ if to_rare && at <= f - (f + 1) / 2 => Some(Said::Position(beyond(random, rare))),
            Some(Said::Position(v)) if !to_rare && (v <= LOW) == (rare == LOW) => Some(Said::Position(beyond(random, common))),
            own => own,
        }
    }
}
