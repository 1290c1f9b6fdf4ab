//! Sequences of calls on one head or listener: rounds in which most links give what a head takes, with other calls, and frames it refuses, in between.

use crate::calls::{Bytes, Call};
use crate::damage::damaged;
use exported::WORDS;
use crate::inputs::{four, near, position, size};
use generator::random::Random;
use rules::family::Family::{self, OneRound, TwoRounds};
use rules::frames::{self, Said};
use rules::head::LAST_PHASE;
use rules::midpoint::Entry;
use generator::spoil::out_of_range;

/// Makes a call on both sides: its number if they agree.
pub type Ask<'a> = &'a mut dyn FnMut(Call) -> Result<u8, String>;

/// The writer of a sequence, with what it knows of the head: enough to make frames that are taken.
struct Writer<'a> {
    random: &'a mut Random,
    ask: Ask<'a>,
    family: Family,
    n: usize,
    f: usize,
    phase: usize,
    round: usize,
    /// How often a record was opened or a round closed: what was planned before is stale.
    turns: usize,
}

/// A sequence on a head that was not started: of a block of zeros every call but closing is known, of any other block only what a start refuses.
pub fn sequence(random: &mut Random, zeros: bool, ask: Ask) -> Result<(), String> {
    let mut writer = Writer { random, ask, family: TwoRounds, n: 0, f: 0, phase: 0, round: 0, turns: 0 };
    for _ in 0..writer.random.below(4) {
        if zeros {
            writer.looks()?;
        }
        writer.refused_opening()?;
        writer.bus()?;
    }
    writer.opening()?;
    for _ in 0..1 + writer.random.below(6) {
        if writer.random.chance(1, 8) {
            writer.opening()?;
        }
        writer.round()?;
    }
    Ok(())
}

impl Writer<'_> {
    fn opened(&mut self, family: Family, n: u32, f: u32, phase: u32, round: u32) {
        (self.family, self.n, self.f, self.phase, self.round) = (family, n as usize, f as usize, phase as usize, round as usize);
        self.turns += 1;
    }

    /// Two rounds, or in two cases of five one.
    fn any_family(&mut self) -> Family {
        if self.random.chance(2, 5) { OneRound } else { TwoRounds }
    }

    /// A start or a restart that is taken.
    fn opening(&mut self) -> Result<(), String> {
        let family = self.any_family();
        let (n, f) = size(self.random, family);
        self.open(family, n as u32, f as u32, false)
    }

    /// A start or a restart in which most numbers are wrong.
    fn refused_opening(&mut self) -> Result<(), String> {
        let family = self.any_family();
        let (n, f) = size(self.random, family);
        let f = if self.random.chance(1, 4) { family.highest_limit(n) + 1 } else { f };
        let (n, f) = (near(self.random, n as u32, 4), near(self.random, f as u32, 4));
        self.open(family, n, f, true)
    }

    /// Of a head, or in one case of three of a listener.
    fn open(&mut self, family: Family, n: u32, f: u32, spoilt: bool) -> Result<(), String> {
        let often = if spoilt { 3 } else { usize::MAX };
        let random = &mut *self.random;
        let listens = random.chance(1, 3);
        let (from, count) = if listens { (32, 16) } else { (0, n.clamp(1, 32) as usize) };
        let number = from + random.below(count) as u32;
        let beside = [n, 31, 32, 47, 48];
        let number = if spoilt && random.chance(1, 4) { random.pick(&beside) } else { near(random, number, often) };
        if random.chance(1, 2) {
            let position = if random.chance(1, often) { out_of_range(random) } else { position(random) };
            let call = if listens { Call::StartListener { family, n, f, number } } else { Call::Start { family, n, f, number, position } };
            if (self.ask)(call)? == 0 {
                self.opened(family, n, f, 1, 0);
            }
            return Ok(());
        }
        let any = 1 + random.below(LAST_PHASE);
        let phase = random.pick(&[1, 2, 255, 256, LAST_PHASE - 1, LAST_PHASE, LAST_PHASE, any]) as u32;
        let rounds = if spoilt { 2 } else { family.rounds() };
        let round = random.below(rounds) as u32;
        let (phase, round) = (near(random, phase, often), near(random, round, often));
        let call = match listens {
            true => Call::RestartListener { family, n, f, number, phase, round },
            false => Call::Restart { family, n, f, number, phase, round },
        };
        if (self.ask)(call)? == 0 {
            self.opened(family, n, f, phase, round);
        }
        Ok(())
    }

    /// All links in any order, some of them in one call, other calls in between, the closing, and what it made.
    fn round(&mut self) -> Result<(), String> {
        let given = if self.round == 0 { self.collection() } else { self.confession() };
        let links = self.random.some(&(0..self.n).collect::<Vec<_>>(), self.n);
        let turns = self.turns;
        let alone = if self.random.chance(1, 2) { 0 } else { self.random.below(self.n + 1) };
        self.batch(&links[alone..], &given)?;
        for &link in &links[..alone] {
            if self.random.chance(1, 6) {
                self.other_call()?;
            }
            if self.turns != turns {
                return Ok(());
            }
            if self.random.chance(1, 8) {
                self.wrong_frame(link)?;
            }
            if let Some(said) = &given[link] {
                self.hear(link, frames::write(said, link, self.phase))?;
            }
        }
        self.looks()?;
        if self.random.chance(1, 3) {
            self.bus()?;
        }
        self.close()?;
        if self.turns == turns && self.random.chance(3, 4) {
            self.opening()?; // the round cannot be closed
        }
        self.looks()
    }

    fn hear(&mut self, link: usize, frame: Vec<u8>) -> Result<(), String> {
        let link = near(self.random, link as u32, 60);
        (self.ask)(Call::Hear { link, frame: Bytes(frame) }).map(drop)
    }

    /// The frames of these links in one call, among them frames with faults, links twice and links that no ring has; sometimes cut anywhere; with room for
    /// about as many answers as there are frames.
    fn batch(&mut self, links: &[usize], given: &[Option<Said>]) -> Result<(), String> {
        let mut frames = Vec::new();
        for &link in links {
            if self.random.chance(1, 12) {
                frames.push((link, self.wrong_bytes(link)));
            }
            for _ in 0..1 + self.random.chance(1, 12) as usize {
                frames.extend(given[link].iter().map(|said| (link, frames::write(said, link, self.phase))));
            }
        }
        let mut batch = Vec::new();
        for (link, frame) in &frames {
            batch.push(near(self.random, *link as u32, 40) as u8);
            batch.extend(frame);
        }
        let more = self.random.below(6);
        match self.random.below(16) {
            0 => batch.truncate(self.random.below(batch.len() + 1)),
            1 => batch.extend(self.random.bytes(1 + more)),
            _ => {}
        }
        let count = frames.len();
        let room = self.random.pick(&[count, count, count, count + 1, count + more, count.saturating_sub(1), more]);
        let (after, out) = (self.random.below(9), self.random.next() as usize >> 1);
        let answers = Bytes(self.random.bytes(room + after));
        (self.ask)(Call::HearBatch { batch: Bytes(batch), answers, room, out }).map(drop)
    }

    /// Closes the round; what is offered is mostly adopted.
    fn close(&mut self) -> Result<(), String> {
        if (self.ask)(Call::Close)? != 0 {
            return Ok(());
        }
        if self.round + 1 == self.family.rounds() {
            return self.adopt();
        }
        self.turns += 1;
        self.round = 1;
        Ok(())
    }

    /// A look at the offer; perhaps a frame that is refused, or one that is accepted and ends the offer; and then mostly an adoption.
    fn adopt(&mut self) -> Result<(), String> {
        (self.ask)(Call::Offer { out: four(self.random) })?;
        let link = self.random.below(self.n);
        if self.random.chance(1, 4) {
            self.wrong_frame(link)?;
        }
        if self.random.chance(1, 6) {
            let said = if self.round == 0 { Said::Silence } else { Said::Confession };
            self.hear(link, frames::write(&said, link, self.phase))?;
        }
        if self.random.chance(1, 6) {
            (self.ask)(Call::Close)?;
        }
        if self.random.chance(7, 8) && (self.ask)(Call::Adopt)? == 0 {
            self.turns += 1;
            self.phase = (self.phase + 1).min(LAST_PHASE);
            self.round = 0;
        }
        (self.ask)(Call::Offer { out: four(self.random) }).map(drop)
    }

    fn wrong_frame(&mut self, link: usize) -> Result<(), String> {
        let frame = self.wrong_bytes(link);
        self.hear(link, frame)
    }

    /// A frame with faults, or one of the other round.
    fn wrong_bytes(&mut self, link: usize) -> Vec<u8> {
        let round = if self.random.chance(1, 4) { 1 - self.round } else { self.round };
        let said = match (round, self.random.chance(1, 4)) {
            (0, true) => Said::Silence,
            (0, false) => Said::Position(position(self.random)),
            (_, true) => Said::Confession,
            (_, false) => Said::List(self.list()),
        };
        let frame = frames::write(&said, link, self.phase);
        if round == self.round || self.random.chance(1, 2) { damaged(self.random, frame) } else { frame }
    }

    fn other_call(&mut self) -> Result<(), String> {
        let link = self.random.below(self.n);
        match self.random.below(14) {
            0..=2 => self.looks(),
            3..=7 => self.wrong_frame(link),
            8 | 9 => self.refused_opening(),
            10 if self.random.chance(1, 2) => self.hear(link, Vec::new()),
            10 => (self.ask)(Call::Adopt).map(drop), // no offer stands
            11 | 12 => self.bus(),
            _ if self.random.chance(1, 4) => self.close(),
            _ => Ok(()),
        }
    }

    /// What the head holds and has to say, into a buffer of any length; before a start, a frame to no link besides.
    fn looks(&mut self) -> Result<(), String> {
        let list = 12 + 4 * self.n;
        let any = self.random.below(150);
        let rooms = [7, 11, list, list + 1, 140, any + 1, any + 1];
        let room = self.random.pick(&rooms) - self.random.chance(1, 8) as usize;
        let (after, out) = (self.random.below(9), self.random.next() as usize >> 1);
        let buffer = Bytes(self.random.bytes(room + after));
        (self.ask)(Call::Write { buffer, room, out })?;
        (self.ask)(Call::Position { out: self.random.next() as i32 })?;
        (self.ask)(Call::Kept { out: four(self.random) })?;
        self.host()?;
        let at = self.random.below(17) as u32;
        let at = near(self.random, at, 12);
        (self.ask)(Call::Register { at, out: self.random.next() as u8 })?;
        (self.ask)(Call::Window { out: [self.random.next() as u8; 16] })?;
        if self.n == 0 { self.hear(0, frames::write(&Said::Silence, 0, 0)) } else { Ok(()) }
    }

    /// What a camera host reads: the reading, and the page of some heads like this one, the last of them perhaps cut short, into a buffer of
    /// any length.
    fn host(&mut self) -> Result<(), String> {
        (self.ask)(Call::Reading { out: four(self.random).map(|x| x as f32)[..3].try_into().unwrap() })?;
        let heads = 1 + self.random.below(4);
        let words = heads * WORDS - if self.random.chance(1, 2) { 0 } else { self.random.below(WORDS + 1) };
        let n = if self.random.chance(1, 2) { heads } else { 1 + self.random.below(32) } as u32;
        let n = near(self.random, n, 8);
        let room = if self.random.chance(1, 2) { self.random.below(100) } else { 64 * 32 };
        let (after, out) = (self.random.below(9), self.random.next() as usize >> 1);
        let buffer = Bytes(self.random.bytes(room + after));
        (self.ask)(Call::HostPage { heads, words, n, buffer, room, out }).map(drop)
    }

    /// Events cleared and masked, with any bits, and writes to bytes that take none; whatever the head is.
    fn bus(&mut self) -> Result<(), String> {
        let at = self.random.pick(&[10, 11]);
        let at = near(self.random, at, 4);
        let bits = 1 << self.random.below(4);
        let byte = self.random.pick(&[bits, bits, 7 - bits % 8, 0xff]) ^ if self.random.chance(1, 4) { self.random.next() as u8 } else { 0 };
        (self.ask)(Call::SetRegister { at, byte })?;
        if self.random.chance(1, 8) {
            (self.ask)(Call::WindowReset { mask: byte })?;
        }
        (self.ask)(Call::Interrupt).map(drop)
    }

    /// Positions, and some nulls: in a one-round ring mostly few enough for a new position, and often just so many.
    fn collection(&mut self) -> Vec<Option<Said>> {
        let most = if self.random.chance(1, 3) { self.n } else { 2 * self.f };
        let count = if self.random.chance(1, 2) { most } else { self.random.below(most + 2) };
        let null = self.random.some(&(0..self.n).collect::<Vec<_>>(), count.min(self.n));
        let mut given: Vec<_> = (0..self.n).map(|_| Some(Said::Position(position(self.random)))).collect();
        for link in null {
            given[link] = if self.random.chance(1, 2) { Some(Said::Silence) } else { None };
        }
        given
    }

    /// A list of n entries, a few of them null.
    fn list(&mut self) -> Vec<Entry> {
        let mut list: Vec<_> = (0..self.n).map(|_| Some(position(self.random))).collect();
        for _ in 0..self.random.below(3 * self.f + 2) {
            let null = self.random.below(self.n);
            list[null] = None;
        }
        list
    }

    /// Lists that agree but for some links: often few enough for a new position, in one round of four any number.
    fn confession(&mut self) -> Vec<Option<Said>> {
        let (truth, other) = (self.list(), self.list());
        let wild = self.random.chance(1, 4);
        let most = if wild { self.n } else { self.f };
        let (bad, healed) = (self.random.below(most + 1), self.random.below(most + 1));
        let mut given = vec![Some(Said::List(truth.clone())); self.n];
        let links = self.random.some(&(0..self.n).collect::<Vec<_>>(), self.n);
        for (at, &link) in links.iter().enumerate() {
            if at < bad {
                given[link] = self.liar(&truth, &other);
            } else if at < bad + healed {
                given[link] = Some(Said::Confession);
            }
        }
        given
    }

    /// Nothing, a confession, the other list, or the true one with some entries of the other.
    fn liar(&mut self, truth: &[Entry], other: &[Entry]) -> Option<Said> {
        let random = &mut *self.random;
        match random.below(6) {
            0 => None,
            1 => Some(Said::Confession),
            2 | 3 => Some(Said::List(other.to_vec())),
            _ => Some(Said::List(truth.iter().zip(other).map(|(&one, &two)| if random.chance(1, 4) { two } else { one }).collect())),
        }
    }
}
