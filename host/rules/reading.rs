//! Document 02, A14: what a camera host reads of a head, as 32-bit floats, and the host page.

use super::midpoint::Kept;

#[derive(Clone, Copy)]
pub enum Reading {
    Unknown,
    Point(f32),
    /// The lowest, the highest and their midpoint.
    Range(f32, f32, f32),
}

/// Of what the last phase end since the start or restart kept. Double precision holds half of every sum, and a 32-bit float what comes out.
pub fn reading(kept: Option<Kept>) -> Reading {
    match kept {
        None => Reading::Unknown,
        Some(kept) if kept.low == kept.high => Reading::Point(kept.low as f32),
        Some(kept) => Reading::Range(kept.low as f32, kept.high as f32, ((kept.low as f64 + kept.high as f64) / 2.0) as f32),
    }
}

fn line(head: usize, reading: Reading) -> String {
    let floats = match reading {
        Reading::Unknown => return format!("{head} unknown\n"),
        Reading::Point(x) => return format!("{head} point {:08x}\n", x.to_bits()),
        Reading::Range(lowest, highest, midpoint) => [lowest, highest, midpoint],
    };
    let [lowest, highest, midpoint] = floats.map(f32::to_bits);
    format!("{head} range {lowest:08x} {highest:08x} {midpoint:08x}\n")
}

/// A line for each head, from 0 up.
pub fn text(readings: &[Reading]) -> String {
    readings.iter().enumerate().map(|(head, &reading)| line(head, reading)).collect()
}

/// 1, 24; the page at the front of the buffer, and its length. A head whose reading is not given is unknown.
pub fn page(n: usize, given: &[Reading], buffer: &mut [u8]) -> Result<usize, u8> {
    if !(1..=32).contains(&n) {
        return Err(1);
    }
    let readings: Vec<Reading> = (0..n).map(|k| given.get(k).copied().unwrap_or(Reading::Unknown)).collect();
    let page = text(&readings);
    buffer.get_mut(..page.len()).ok_or(24)?.copy_from_slice(page.as_bytes());
    Ok(page.len())
}
