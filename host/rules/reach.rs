//! One lens set to reach a focus (document 02, A13): the lowest position for the open entry of a table which brings the wanted one, by search.

use super::family::Family;
use super::midpoint::{is_phase, marked, settle_by, table, Entry, LIMIT};

/// The new position with the open entry at u.
fn brings(family: Family, f: usize, phase: usize, entries: &mut [Entry], open: usize, u: i32) -> Result<i32, u8> {
    entries[open] = Some(u);
    Ok(settle_by(family, f, phase, entries)?.position)
}

/// 1, 2 or 18, 5, 3, 8, 10, 11, 25; the position, or none. What the bytes and the mark of the open entry say does not matter.
pub fn reach(family: Family, n: usize, f: usize, phase: usize, open: usize, marks: u32, entries: &[u8], wanted: i32) -> Result<Option<i32>, u8> {
    family.size(n, f)?;
    if !is_phase(phase) {
        return Err(5);
    }
    if open >= n {
        return Err(3);
    }
    if entries.len() != 4 * n {
        return Err(8);
    }
    let mut bytes = entries.to_vec();
    bytes[4 * open..4 * open + 4].fill(0);
    let cleared = if marked(marks, open) { marks - (1 << open) } else { marks };
    let mut entries = table(n, cleared, &bytes)?;
    let mut at = |u| brings(family, f, phase, &mut entries, open, u);
    // from one position to the next the new one stays or rises, so the first that is not below the wanted one is sought by halves
    let (mut below, mut up_to) = (-LIMIT - 1, LIMIT);
    if at(up_to)? < wanted {
        return Ok(None);
    }
    while up_to - below > 1 {
        let middle = (below + up_to).div_euclid(2);
        if at(middle)? < wanted {
            below = middle;
        } else {
            up_to = middle;
        }
    }
    Ok((at(up_to)? == wanted).then_some(up_to))
}
