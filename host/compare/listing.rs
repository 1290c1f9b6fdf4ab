//! What every listing must be, whatever the file: its form, demand 3 on its phase ends, and one position where no head was struck last.

use crate::files::TITLE;
use rules::family::Family::{self, OneRound};
use rules::head::LAST_PHASE;
use rules::midpoint::LIMIT;

/// The numbers that a run file can be refused with.
pub const NUMBERS: [u8; 7] = [1, 2, 18, 4, 13, 14, 26];

/// The sound heads and listeners at a phase end; at the start the heads alone.
#[derive(Clone, Copy)]
pub struct End {
    pub low: i32,
    pub high: i32,
    /// The marks of the heads struck in the phase's last round.
    pub last: u32,
}

impl End {
    pub fn spread(&self) -> i32 {
        self.high - self.low
    }
}

pub struct Listing {
    pub ends: Vec<End>,
    /// 0 for a file played out.
    pub number: u8,
}

/// The listing of a ring of n heads with limit f, or what is wrong with its form.
pub fn read(bytes: &[u8], family: Family, n: usize, f: usize) -> Result<Listing, String> {
    let text = std::str::from_utf8(bytes).map_err(|_| "the listing is not text")?;
    let rest = text.strip_prefix(TITLE).ok_or("no title line")?;
    let mut lines: Vec<&str> = rest.split_inclusive('\n').collect();
    let last = lines.pop().ok_or("no last line")?;
    let number = ended(last).ok_or_else(|| format!("a last line {last:?}"))?;
    let mut ends = Vec::with_capacity(lines.len());
    for (phase, line) in lines.iter().enumerate() {
        ends.push(end(line, family, phase, n, f).ok_or_else(|| format!("a line of phase {phase} {line:?}"))?);
    }
    let fits = match number {
        0 | 14 => !ends.is_empty(),
        1 | 2 | 4 | 18 => ends.is_empty(),
        26 => ends.len() == LAST_PHASE,
        _ => true,
    };
    if fits { Ok(Listing { ends, number }) } else { Err(format!("{last:?} after {} lines", ends.len())) }
}

fn ended(line: &str) -> Option<u8> {
    NUMBERS.into_iter().find(|number| line == format!("refused {number}\n")).or((line == "end\n").then_some(0))
}

/// A line is read, and must be what is printed of what was read; in a one-round ring no head is struck in confession.
fn end(line: &str, family: Family, phase: usize, n: usize, f: usize) -> Option<End> {
    let fields: Vec<&str> = line.split_ascii_whitespace().collect();
    let (low, high): (i32, i32) = (fields.get(1)?.parse().ok()?, fields.get(2)?.parse().ok()?);
    let collect = u32::from_str_radix(fields.get(4)?, 16).ok()?;
    let confess = u32::from_str_radix(fields.get(5)?, 16).ok()?;
    let most = if phase == 0 { 0 } else { f as u32 };
    let fits = |marks: u32| marks.count_ones() <= most && (n >= 32 || marks >> n == 0);
    let right = -LIMIT <= low && low <= high && high <= LIMIT && fits(collect) && fits(confess) && (family != OneRound || confess == 0);
    let printed = || format!("{phase} {low} {high} {} {collect:08x} {confess:08x}\n", high - low);
    let last = if family == OneRound { collect } else { confess };
    (right && printed() == line).then_some(End { low, high, last })
}

/// The phase ends after a last round in which no head was struck; the start is none.
pub fn unstruck(ends: &[End]) -> impl Iterator<Item = (usize, &End)> {
    ends.iter().enumerate().skip(1).filter(|(_, end)| end.last == 0)
}

/// All sound heads and listeners hear the same in such a round, so they stand at one position after it. Document 02, A11, asks it of phases of which both rounds are
/// such.
pub fn settles(ends: &[End]) -> Result<(), String> {
    match unstruck(ends).find(|(_, end)| end.spread() != 0) {
        Some((phase, end)) => Err(format!("a spread of {} after phase {phase}, in whose last round no head was struck", end.spread())),
        None => Ok(()),
    }
}

/// Whether halving is promised: in one-round rings always.
pub fn halving(family: Family, n: usize, f: usize) -> bool {
    family == OneRound || 3 * n >= 11 * f + 3
}

/// Demand 3 on every two phase ends up to 21 apart. From there on a spread of at most 2,000,000 is bounded by 1, or 0, for good, and the ends
/// between them carry that on.
pub fn converges(ends: &[End], family: Family, n: usize, f: usize) -> Result<(), String> {
    for (at, earlier) in ends.iter().enumerate() {
        for (k, later) in ends[at..].iter().enumerate().take(22) {
            if later.low < earlier.low || earlier.high < later.high {
                return Err(format!("phase end {} is not in the range of phase end {at}", at + k));
            }
            if halving(family, n, f) && later.spread() > (earlier.spread() + (1 << k) - 1) >> k {
                return Err(format!("the spread at phase end {} is too great after phase end {at}", at + k));
            }
        }
    }
    Ok(())
}
