//! Positions known within limits (document 02, A12): the lowest and highest new position that any choice within the limits can bring. Few choices are all
//! tried; for any number of them the two ends are found by counting.

use super::family::Family;
use super::frames::word;
use super::midpoint::{half, is_phase, is_position, marked, settle, trim, Entry, LIMIT};
use std::collections::BTreeSet;

/// Null, or a lowest and a highest position.
type Limits = Option<(i32, i32)>;

/// So many choices are all tried.
const TRIED: u64 = 300;

/// 10, 19; n entries of 8 bytes each.
fn table(n: usize, marks: u32, bytes: &[u8]) -> Result<Vec<Limits>, u8> {
    if (n..32).any(|j| marked(marks, j)) {
        return Err(10);
    }
    let mut limits = Vec::with_capacity(n);
    for j in 0..n {
        let (low, high) = (word(bytes, 8 * j) as i32, word(bytes, 8 * j + 4) as i32);
        let known = marked(marks, j);
        if if known { low > high || !is_position(low) || !is_position(high) } else { low != 0 || high != 0 } {
            return Err(19);
        }
        limits.push(known.then_some((low, high)));
    }
    Ok(limits)
}

/// How many choices there are.
fn choices(limits: &[Limits]) -> u64 {
    limits.iter().flatten().fold(1, |product: u64, &(low, high)| product.saturating_mul((high - low) as u64 + 1))
}

/// Every new position, all choices tried, from entry `chosen.len()` on.
fn try_all(f: usize, phase: usize, limits: &[Limits], chosen: &mut Vec<Entry>, brought: &mut BTreeSet<i32>) -> Result<(), u8> {
    let Some(&next) = limits.get(chosen.len()) else {
        brought.insert(settle(f, phase, chosen)?.position);
        return Ok(());
    };
    let values: Vec<Entry> = next.map_or(vec![None], |(low, high)| (low..=high).map(Some).collect());
    for value in values {
        chosen.push(value);
        try_all(f, phase, limits, chosen, brought)?;
        chosen.pop();
    }
    Ok(())
}

/// The least position that more than `place` of these can lie at or below.
fn at_place(ends: &[i32], place: usize) -> i32 {
    let (mut low, mut high) = (-LIMIT, LIMIT);
    while low < high {
        let middle = (low + high).div_euclid(2);
        if ends.iter().filter(|&&end| end <= middle).count() > place {
            high = middle;
        } else {
            low = middle + 1;
        }
    }
    low
}

/// 1, 2, 5, 8 (not 8n bytes), 10, 19, 25; the lowest and the highest new position.
pub fn limits(n: usize, f: usize, phase: usize, marks: u32, bytes: &[u8]) -> Result<(i32, i32), u8> {
    Family::TwoRounds.size(n, f)?;
    if !is_phase(phase) {
        return Err(5);
    }
    if bytes.len() != 8 * n {
        return Err(8);
    }
    let limits = table(n, marks, bytes)?;
    let (lows, highs): (Vec<i32>, Vec<i32>) = limits.iter().flatten().copied().unzip();
    let trim = trim(f, n - lows.len())?;
    let end = |ends: &[i32]| half(at_place(ends, trim) + at_place(ends, ends.len() - trim - 1), phase);
    let (low, high) = (end(&lows), end(&highs));
    if choices(&limits) <= TRIED {
        let mut brought = BTreeSet::new();
        try_all(f, phase, &limits, &mut Vec::new(), &mut brought)?;
        assert!(brought.into_iter().eq(low..=high), "each step from the lowest to the highest new position, and no other");
    }
    Ok((low, high))
}
