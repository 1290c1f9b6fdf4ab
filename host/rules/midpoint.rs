//! Positions, tables of entries, what a head settles from its entries, and the midpoint of a trusted table.

use super::family::Family;
use super::frames::word;
use super::head::LAST_PHASE;

pub const LIMIT: i32 = 1_000_000;

/// A position, or null.
pub type Entry = Option<i32>;

pub fn is_position(v: i32) -> bool {
    (-LIMIT..=LIMIT).contains(&v)
}

/// Phases are numbered 1 to 65,535.
pub fn is_phase(phase: usize) -> bool {
    (1..=LAST_PHASE).contains(&phase)
}

pub fn marked(marks: u32, j: usize) -> bool {
    j < 32 && marks >> j & 1 == 1
}

/// 10, 11; n entries of 4 bytes each.
pub fn table(n: usize, marks: u32, bytes: &[u8]) -> Result<Vec<Entry>, u8> {
    if (n..32).any(|j| marked(marks, j)) {
        return Err(10);
    }
    let mut entries = Vec::with_capacity(n);
    for j in 0..n {
        let v = word(bytes, 4 * j) as i32;
        let known = marked(marks, j);
        if if known { !is_position(v) } else { v != 0 } {
            return Err(11);
        }
        entries.push(known.then_some(v));
    }
    Ok(entries)
}

/// What a settling keeps (document 02, A2): the lowest and highest entry kept, how many were dropped from each end, and the new position.
#[derive(Clone, Copy)]
pub struct Kept {
    pub low: i32,
    pub high: i32,
    pub trim: usize,
    pub position: i32,
}

/// Half a sum: an odd one goes down in odd phases and up in even ones, towards minus and plus infinity (document 02, A7).
pub fn half(sum: i32, phase: usize) -> i32 {
    if phase % 2 == 1 {
        sum.div_euclid(2)
    } else {
        -(-sum).div_euclid(2)
    }
}

/// 25 if more than 3f entries are null; how many are dropped from each end at the end of a two-round phase.
pub fn trim(f: usize, nulls: usize) -> Result<usize, u8> {
    if nulls > 3 * f {
        return Err(25);
    }
    Ok(if nulls <= f { f } else { (3 * f - nulls + 1) / 2 })
}

/// 25; the new position at the end of a two-round phase, with what it is the middle of.
pub fn settle(f: usize, phase: usize, trusted: &[Entry]) -> Result<Kept, u8> {
    let mut order: Vec<i32> = trusted.iter().flatten().copied().collect();
    let trim = trim(f, trusted.len() - order.len())?;
    order.sort_unstable();
    let (low, high) = (order[trim], order[order.len() - trim - 1]);
    Ok(Kept { low, high, trim, position: half(low + high, phase) })
}

/// 25 if more than 2f entries are null; the new position at the end of a one-round phase (document 02, A9): of the positions heard, the lowest and the
/// highest are taken away f times.
pub fn settle_once(f: usize, phase: usize, heard: &[Entry]) -> Result<Kept, u8> {
    let mut left: Vec<i32> = heard.iter().flatten().copied().collect();
    if heard.len() - left.len() > 2 * f {
        return Err(25);
    }
    for _ in 0..f {
        let lowest = (0..left.len()).min_by_key(|&at| left[at]).unwrap();
        left.swap_remove(lowest);
        let highest = (0..left.len()).max_by_key(|&at| left[at]).unwrap();
        left.swap_remove(highest);
    }
    let (low, high) = (*left.iter().min().unwrap(), *left.iter().max().unwrap());
    Ok(Kept { low, high, trim: f, position: half(low + high, phase) })
}

/// 25; the new position by the family's rule.
pub fn settle_by(family: Family, f: usize, phase: usize, entries: &[Entry]) -> Result<Kept, u8> {
    match family {
        Family::TwoRounds => settle(f, phase, entries),
        Family::OneRound => settle_once(f, phase, entries),
    }
}

/// 1, 2 or 18, 5, 8, 10, 11, 25; the new position of a trusted table in a phase, with what it is the middle of.
pub fn midpoint(family: Family, n: usize, f: usize, phase: usize, marks: u32, entries: &[u8]) -> Result<Kept, u8> {
    family.size(n, f)?;
    if !is_phase(phase) {
        return Err(5);
    }
    if entries.len() != 4 * n {
        return Err(8);
    }
    settle_by(family, f, phase, &table(n, marks, entries)?)
}
