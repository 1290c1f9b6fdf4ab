//! The run file: records as they come, rounds of a whole ring, and the listing.

use crate::family::Family;
use crate::frames::{half, word};
use crate::head::{Head, FIRST_LISTENER, LAST_PHASE, MOST_LISTENERS};
use crate::midpoint::marked;
use crate::reading::{reading, text};
use crate::records::{LISTENERS, LONGEST, PLANTED, ROUND, START, START_ONE, STRIKE};
use std::io::{self, Read, Write};

/// The mark words of a round's struck heads and struck listeners.
#[derive(Clone, Copy, Default)]
struct Struck {
    heads: u32,
    listeners: u16,
}

impl Struck {
    fn has(&self, number: usize) -> bool {
        marked(self.heads, number) || number >= FIRST_LISTENER && marked(self.listeners as u32, number - FIRST_LISTENER)
    }
}

struct Round {
    struck: Struck,
    planted: Vec<(usize, usize, Vec<u8>)>,
}

/// The ring after an accepted start. A struck head or listener has no record.
struct Ring {
    family: Family,
    n: usize,
    f: usize,
    /// The n heads, then the listeners.
    heads: Vec<Option<Head>>,
    played: usize,
    before: Struck,
    given: usize,
    waiting: Option<Round>,
    /// The kind of the last record taken.
    last: u16,
}

impl Ring {
    fn start(family: Family, record: &[u8]) -> Result<Ring, u8> {
        if record.len() < 6 || record.len() != 6 + 4 * record[4] as usize {
            return Err(13);
        }
        let (n, f) = (record[4] as usize, record[5] as usize);
        family.size(n, f)?;
        let start = |i: usize| Head::start(family, n, f, i, word(record, 6 + 4 * i) as i32).map(Some);
        let heads = (0..n).map(start).collect::<Result<_, u8>>()?;
        Ok(Ring { family, n, f, heads, played: 0, before: Struck::default(), given: 0, waiting: None, last: half(record, 2) })
    }

    /// The number of the head or listener at a place among `heads`.
    fn number(&self, at: usize) -> usize {
        if at < self.n { at } else { FIRST_LISTENER + at - self.n }
    }

    /// Where the head or listener of a number is, if there is one.
    fn place(&self, number: usize) -> Option<usize> {
        let at = if number < self.n { number } else { self.n + number.checked_sub(FIRST_LISTENER)? };
        (at < self.heads.len()).then_some(at)
    }

    /// Just after the start: how many listeners there are.
    fn listeners(&mut self, record: &[u8]) -> Result<(), u8> {
        if !matches!(self.last, START | START_ONE) || record.len() != 5 || !(1..=MOST_LISTENERS).contains(&(record[4] as usize)) {
            return Err(13);
        }
        for number in FIRST_LISTENER..FIRST_LISTENER + record[4] as usize {
            self.heads.push(Some(Head::start_listener(self.family, self.n, self.f, number)?));
        }
        Ok(())
    }

    /// Directly after a round record: its struck listeners.
    fn strike(&mut self, record: &[u8]) -> Result<(), u8> {
        let count = self.heads.len() - self.n;
        let round = match &mut self.waiting {
            Some(round) if self.last == ROUND && record.len() == 6 => round,
            _ => return Err(13),
        };
        let marks = half(record, 4);
        if (count..MOST_LISTENERS).any(|j| marked(marks as u32, j)) {
            return Err(13);
        }
        round.struck.listeners = marks;
        Ok(())
    }

    fn round(&mut self, record: &[u8], output: &mut impl Write) -> io::Result<Result<(), u8>> {
        if record.len() != 8 {
            return Ok(Err(13));
        }
        let marks = word(record, 4);
        if marks.count_ones() as usize > self.f || (self.n..32).any(|j| marked(marks, j)) {
            return Ok(Err(14));
        }
        if self.given == self.family.rounds() * LAST_PHASE {
            return Ok(Err(26));
        }
        self.play(output)?;
        self.given += 1;
        self.waiting = Some(Round { struck: Struck { heads: marks, listeners: 0 }, planted: Vec::new() });
        Ok(Ok(()))
    }

    fn plant(&mut self, record: &[u8]) -> Result<(), u8> {
        if !(6..=6 + LONGEST).contains(&record.len()) {
            return Err(13);
        }
        let (from, to) = (record[4] as usize, record[5] as usize);
        let there = from < self.n && self.place(to).is_some();
        let round = self.waiting.as_mut().filter(|_| there).ok_or(13)?;
        let rises = round.planted.last().map_or(true, |last| (last.0, last.1) < (from, to));
        if !round.struck.has(from) || round.struck.has(to) || !rises {
            return Err(13);
        }
        round.planted.push((from, to, record[6..].to_vec()));
        Ok(())
    }

    /// Plays the round that waits, and prints the line of a phase that it ends.
    fn play(&mut self, output: &mut impl Write) -> io::Result<()> {
        let round = match self.waiting.take() {
            Some(round) => round,
            None => return Ok(()),
        };
        let rounds = self.family.rounds();
        let (phase, stage) = (self.played / rounds + 1, self.played % rounds);
        for at in 0..self.heads.len() {
            let number = self.number(at);
            let restart = if at < self.n { Head::restart } else { Head::restart_listener };
            if round.struck.has(number) {
                self.heads[at] = None;
            } else if self.before.has(number) {
                self.heads[at] = Some(restart(self.family, self.n, self.f, number, phase, stage).unwrap());
            }
        }
        let sent: Vec<_> = self.heads[..self.n].iter().map(|head| head.as_ref().map(|head| head.says().unwrap())).collect();
        for head in self.heads.iter_mut().flatten() {
            for (k, frame) in sent.iter().enumerate() {
                if let Some(frame) = frame {
                    head.hear(k, frame).unwrap();
                }
            }
        }
        for (from, to, bytes) in &round.planted {
            let at = self.place(*to).unwrap();
            let _ = self.heads[at].as_mut().unwrap().hear(*from, bytes); // a refused frame gives nothing
        }
        for head in self.heads.iter_mut().flatten() {
            head.end_round().unwrap();
        }
        match (self.family, stage) {
            (Family::TwoRounds, 0) => {}
            (Family::TwoRounds, _) => self.line(output, phase, self.before.heads, round.struck.heads)?,
            (Family::OneRound, _) => self.line(output, phase, round.struck.heads, 0)?,
        }
        self.before = round.struck;
        self.played += 1;
        Ok(())
    }

    /// Over the sound heads and listeners, which have a record; line 0 is printed before there are listeners.
    fn line(&self, output: &mut impl Write, phase: usize, collect: u32, confess: u32) -> io::Result<()> {
        let sound = self.heads.iter().flatten().map(|head| head.position.unwrap());
        let (low, high) = (sound.clone().min().unwrap(), sound.max().unwrap());
        writeln!(output, "{phase} {low} {high} {} {collect:08x} {confess:08x}", high - low)
    }
}

/// The next record: `None` at the end of the file, 13 if it is cut short.
fn record(input: &mut impl Read) -> io::Result<Option<Result<Vec<u8>, u8>>> {
    let mut bytes = Vec::with_capacity(160);
    if input.take(4).read_to_end(&mut bytes)? == 0 {
        return Ok(None);
    }
    if bytes.len() < 4 || half(&bytes, 0) < 4 {
        return Ok(Some(Err(13)));
    }
    let length = half(&bytes, 0) as usize;
    input.take(length as u64 - 4).read_to_end(&mut bytes)?;
    Ok(Some(if bytes.len() == length { Ok(bytes) } else { Err(13) }))
}

/// Takes one record.
fn take(ring: &mut Option<Ring>, bytes: &[u8], output: &mut impl Write) -> io::Result<Result<(), u8>> {
    match (half(bytes, 2), &mut *ring) {
        (kind @ (START | START_ONE), None) => {
            let family = if kind == START { Family::TwoRounds } else { Family::OneRound };
            let started = match Ring::start(family, bytes) {
                Ok(started) => started,
                Err(number) => return Ok(Err(number)),
            };
            started.line(output, 0, 0, 0)?;
            *ring = Some(started);
            Ok(Ok(()))
        }
        (kind, Some(ring)) => {
            let taken = match kind {
                LISTENERS => ring.listeners(bytes),
                ROUND => ring.round(bytes, output)?,
                STRIKE => ring.strike(bytes),
                PLANTED => ring.plant(bytes),
                _ => Err(13),
            };
            ring.last = kind;
            Ok(taken)
        }
        _ => Ok(Err(13)),
    }
}

/// Document 02, A14: the host page as it stands at the last phase end that is played; nothing if no start is accepted. A struck head has no
/// record, and its reading is unknown.
pub fn page(file: &[u8]) -> io::Result<String> {
    let mut listing = Vec::new();
    play(file, &mut listing)?;
    let lines = |text: &[u8]| text.iter().filter(|&&byte| byte == b'\n').count();
    let (ends, mut shown) = (lines(&listing) - 2, 0); // without the first line and the last
    let (mut input, mut ring) = (file, None);
    while shown < ends {
        let mut output = Vec::new();
        let _ = match record(&mut input)? {
            Some(bytes) => take(&mut ring, &bytes.unwrap(), &mut output)?,
            None => ending(&mut ring, &mut output)?,
        };
        shown += lines(&output);
    }
    let shown = |head: &Option<Head>| reading(head.as_ref().and_then(|head| head.kept));
    Ok(ring.map_or_else(String::new, |ring| text(&ring.heads[..ring.n].iter().map(shown).collect::<Vec<_>>())))
}

/// Plays a file and prints the lines of its phases: the ring after the last round played, and how the file ended.
fn played(mut input: impl Read, output: &mut impl Write) -> io::Result<(Option<Ring>, Result<(), u8>)> {
    let mut ring = None;
    let ended = loop {
        let bytes = match record(&mut input)? {
            None => break ending(&mut ring, output)?,
            Some(Err(number)) => break Err(number),
            Some(Ok(bytes)) => bytes,
        };
        if let Err(number) = take(&mut ring, &bytes, output)? {
            break Err(number);
        }
    };
    Ok((ring, ended))
}

/// The file ends after the start, with its listeners, or after the last round of a phase.
fn ending(ring: &mut Option<Ring>, output: &mut impl Write) -> io::Result<Result<(), u8>> {
    match ring {
        Some(ring) if ring.given % ring.family.rounds() == 0 => ring.play(output).map(Ok),
        _ => Ok(Err(13)),
    }
}

fn last_line(ended: Result<(), u8>, output: &mut impl Write) -> io::Result<()> {
    match ended {
        Ok(()) => writeln!(output, "end"),
        Err(number) => writeln!(output, "refused {number}"),
    }
}

pub fn play(input: impl Read, output: &mut impl Write) -> io::Result<()> {
    writeln!(output, "phase low high spread collect confess")?;
    let (_, ended) = played(input, output)?;
    last_line(ended, output)
}

/// The phases since the last strike of each head and listener (document 02, A10), who was struck last first: those that its record holds. One that was
/// struck in the last round played has no record, and its count is 0.
pub fn counts(input: impl Read, output: &mut impl Write) -> io::Result<()> {
    let (ring, ended) = played(input, &mut io::sink())?;
    let mut counts: Vec<(u8, usize)> = Vec::new();
    if let Some(ring) = &ring {
        counts.extend(ring.heads.iter().enumerate().map(|(at, head)| (head.as_ref().map_or(0, |head| head.since), ring.number(at))));
    }
    counts.sort_unstable();
    for (count, number) in counts {
        let name = if number < FIRST_LISTENER { "head" } else { "listener" };
        let (more, many) = (if count == u8::MAX { " or more" } else { "" }, if count == 1 { "" } else { "s" });
        writeln!(output, "{name} {number}: {count}{more} phase{many} since its last strike or the start")?;
    }
    last_line(ended, output)
}
