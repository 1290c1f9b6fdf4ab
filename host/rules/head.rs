//! A head's record and its calls.

use super::family::Family;
use super::frames::{self, Said};
use super::midpoint::{is_phase, is_position, settle, settle_once, Entry, Kept};

pub const LAST_PHASE: usize = 65_535;
/// The number of the first listener, whatever n is, and how many there can be.
pub const FIRST_LISTENER: usize = 32;
pub const MOST_LISTENERS: usize = 16;
/// Phase ends are counted up to here (document 02, A10).
const MOST_COUNTED: u8 = 255;

/// A head, or a listener (document 02, A6): a listener has a number of its own, hears and closes as a head does, and sends nothing.
pub struct Head {
    pub family: Family,
    pub(super) n: usize,
    pub(super) f: usize,
    pub(super) number: usize,
    pub(super) phase: usize,
    pub(super) round: usize,
    pub(super) healed: bool,
    pub(super) ended: bool,
    pub position: Entry,
    /// Of the last phase end since the start or restart.
    pub kept: Option<Kept>,
    /// Phase ends passed since the start or restart.
    pub since: u8,
    list: Vec<Entry>,
    heard: Vec<Option<Said>>,
}

fn is_listener(number: usize) -> bool {
    (FIRST_LISTENER..FIRST_LISTENER + MOST_LISTENERS).contains(&number)
}

impl Head {
    /// A head of no ring: what was never started.
    pub fn none() -> Head {
        Head { healed: false, ..Head::healed(Family::TwoRounds, 0, 0, 0, 0, 0) }
    }

    fn healed(family: Family, n: usize, f: usize, number: usize, phase: usize, round: usize) -> Head {
        let (list, heard) = (vec![None; n], vec![None; n]);
        Head { family, n, f, number, phase, round, healed: true, ended: false, position: None, kept: None, since: 0, list, heard }
    }

    /// 1, 2 (or 18), 3, 4.
    pub fn start(family: Family, n: usize, f: usize, number: usize, position: i32) -> Result<Head, u8> {
        family.size(n, f)?;
        if number >= n {
            return Err(3);
        }
        if !is_position(position) {
            return Err(4);
        }
        Ok(Head { healed: false, position: Some(position), ..Head::healed(family, n, f, number, 1, 0) })
    }

    /// 1, 2 (or 18), 3, 5.
    pub fn restart(family: Family, n: usize, f: usize, number: usize, phase: usize, round: usize) -> Result<Head, u8> {
        family.size(n, f)?;
        if number >= n {
            return Err(3);
        }
        Head::resumed(family, n, f, number, phase, round)
    }

    /// 5.
    fn resumed(family: Family, n: usize, f: usize, number: usize, phase: usize, round: usize) -> Result<Head, u8> {
        if !is_phase(phase) || round >= family.rounds() {
            return Err(5);
        }
        Ok(Head::healed(family, n, f, number, phase, round))
    }

    /// Document 02, A6: "A listener is started under its own number, without a position". 1, 2 (or 18), 3.
    pub fn start_listener(family: Family, n: usize, f: usize, number: usize) -> Result<Head, u8> {
        family.size(n, f)?;
        if !is_listener(number) {
            return Err(3);
        }
        Ok(Head { healed: false, ..Head::healed(family, n, f, number, 1, 0) })
    }

    /// 1, 2 (or 18), 3, 5.
    pub fn restart_listener(family: Family, n: usize, f: usize, number: usize, phase: usize, round: usize) -> Result<Head, u8> {
        family.size(n, f)?;
        if !is_listener(number) {
            return Err(3);
        }
        Head::resumed(family, n, f, number, phase, round)
    }

    /// 26, 3, 21, then what the frame is refused for.
    pub fn hear(&mut self, link: usize, frame: &[u8]) -> Result<(), u8> {
        if self.ended {
            return Err(26);
        }
        if link >= self.n {
            return Err(3);
        }
        if self.heard[link].is_some() {
            return Err(21);
        }
        let said = frames::read(frame, self.n, self.phase, self.round, link)?;
        self.heard[link] = Some(said);
        Ok(())
    }

    /// Document 02, A1: the frames of a batch, in order, going on past a refused one; the front of `answers` gets 0 or the number of each. 15, 24; how
    /// many frames there are.
    pub fn hear_batch(&mut self, batch: &[u8], answers: &mut [u8]) -> Result<usize, u8> {
        let entries = frames::cut(batch)?;
        let room = answers.get_mut(..entries.len()).ok_or(24)?;
        for (answer, (link, frame)) in room.iter_mut().zip(&entries) {
            *answer = self.hear(*link, frame).err().unwrap_or(0);
        }
        Ok(entries.len())
    }

    /// 26, 17; the frame.
    pub fn says(&self) -> Result<Vec<u8>, u8> {
        if self.ended {
            return Err(26);
        }
        if is_listener(self.number) {
            return Err(17);
        }
        let said = match (self.round, self.healed) {
            (0, true) => Said::Silence,
            (0, false) => self.position.map_or(Said::Silence, Said::Position),
            (_, true) => Said::Confession,
            (_, false) => Said::List(self.list.clone()),
        };
        Ok(frames::write(&said, self.number, self.phase))
    }

    /// 26, 17, 24; the frame at the front of the buffer, and its length.
    pub fn write(&self, buffer: &mut [u8]) -> Result<usize, u8> {
        let frame = self.says()?;
        buffer.get_mut(..frame.len()).ok_or(24)?.copy_from_slice(&frame);
        Ok(frame.len())
    }

    /// 26, 25. A collection round ends; of a phase's last round the position is only offered (document 02, A8). In a one-round ring every round is one.
    pub fn close(&mut self) -> Result<Option<Kept>, u8> {
        if self.ended {
            return Err(26);
        }
        if self.family == Family::OneRound {
            return settle_once(self.f, self.phase, &self.positions_heard()).map(Some);
        }
        if self.round == 1 {
            let trusted: Vec<_> = (0..self.n).map(|j| self.trusted(j)).collect();
            return settle(self.f, self.phase, &trusted).map(Some);
        }
        self.list = self.positions_heard();
        self.round = 1;
        self.open();
        Ok(None)
    }

    /// One entry per link: the position heard, else null.
    fn positions_heard(&self) -> Vec<Entry> {
        let entry = |said: &Option<Said>| if let Some(Said::Position(v)) = said { Some(*v) } else { None };
        self.heard.iter().map(entry).collect()
    }

    /// What was offered becomes the position, and the phase ends.
    pub fn adopt(&mut self, kept: Kept) {
        (self.position, self.kept) = (Some(kept.position), Some(kept));
        if self.since < MOST_COUNTED {
            self.since += 1;
        }
        self.list = vec![None; self.n];
        self.ended = self.phase == LAST_PHASE;
        if !self.ended {
            self.phase += 1;
            self.round = 0;
        }
        self.open();
    }

    /// Nothing is heard yet in this round.
    fn open(&mut self) {
        self.healed = false;
        self.heard = vec![None; self.n];
    }

    /// Closes the round, and adopts what is offered at once. 26, 25.
    pub fn end_round(&mut self) -> Result<(), u8> {
        if let Some(kept) = self.close()? {
            self.adopt(kept);
        }
        Ok(())
    }

    /// How many links support u for head j.
    fn support(&self, j: usize, u: i32) -> usize {
        let supports = |said: &&Option<Said>| match said {
            Some(Said::Confession) => true,
            Some(Said::List(list)) => list[j] == Some(u),
            _ => false,
        };
        self.heard.iter().filter(supports).count()
    }

    /// The one position with support n - f or more, unless link j confessed.
    fn trusted(&self, j: usize) -> Entry {
        let reach = self.n - self.f;
        let confessions = self.heard.iter().filter(|said| **said == Some(Said::Confession)).count();
        if self.heard[j] == Some(Said::Confession) || confessions >= reach {
            return None; // with so many confessions every position has the support
        }
        let mut found: Entry = None;
        let said_of = |said: &Said| if let Said::List(list) = said { list[j] } else { None };
        for u in self.heard.iter().flatten().filter_map(said_of) {
            if found != Some(u) && self.support(j, u) >= reach {
                if found.is_some() {
                    return None;
                }
                found = Some(u);
            }
        }
        found
    }
}
