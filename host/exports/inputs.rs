//! Arguments from a seed: most of them right, some just beside it, some equal to a right one in their low bits only.

use crate::calls::{Bytes, Call};
use crate::damage::damaged;
use exported::Aim;
use generator::random::Random;
use rules::family::Family::{self, OneRound, TwoRounds};
use rules::midpoint::{self, LIMIT};
use generator::spoil::out_of_range;

/// Ends of numbers, and struck limits f for which 7f + 2 or 4f + 1 is small again in 8 or in 32 bits.
const EDGES: [u32; 14] = [0, 1, 31, 32, 33, 37, 64, 110, 255, 256, 613_566_757, 1 << 30, 1 << 31, u32::MAX];

pub fn position(random: &mut Random) -> i32 {
    match random.below(5) {
        0 => random.between(-3, 3),
        1 => random.between(-LIMIT, LIMIT),
        2 => LIMIT - random.between(0, 2),
        3 => random.between(0, 2) - LIMIT,
        _ => random.between(0, 2),
    }
}

/// The right number, but once in `often` another.
pub fn near(random: &mut Random, right: u32, often: usize) -> u32 {
    if !random.chance(1, often) {
        return right;
    }
    match random.below(6) {
        0 => right.wrapping_add(1),
        1 => right.wrapping_sub(1),
        2 => right.wrapping_add(1 << 8),
        3 => right.wrapping_add(1 << 16),
        4 => random.pick(&EDGES),
        _ => random.next() as u32,
    }
}

/// An accepted n and f.
pub fn size(random: &mut Random, family: Family) -> (usize, usize) {
    let n = if random.chance(1, 3) { random.pick(&[1, 5, 8, 9, 12, 23, 29, 32]) } else { 1 + random.below(32) };
    let most = family.highest_limit(n);
    (n, if random.chance(1, 2) { most } else { random.below(most + 1) })
}

/// A ring, a phase and the marks of a trusted table: most of them right.
struct Settling {
    n: u32,
    f: u32,
    phase: u32,
    marks: u32,
}

/// How many entries there are, their marks, and what is given with them.
fn settling(random: &mut Random, family: Family) -> (usize, u32, Settling) {
    let (heads, f) = size(random, family);
    let mut marked = u32::MAX >> (32 - heads);
    for _ in 0..random.below(3 * f + 3) {
        marked &= !(1 << random.below(32));
    }
    let marks = if random.chance(1, 30) { marked | 1 << random.below(32) } else { marked };
    let f = if random.chance(1, 30) { family.highest_limit(heads) + 1 } else { f };
    let (n, f) = (near(random, heads as u32, 25), near(random, f as u32, 25));
    let phase = if random.chance(1, 3) { random.pick(&[1, 2, 3, 65534, 65535]) } else { 1 + random.below(65535) };
    let phase = if random.chance(1, 30) { random.pick(&[0, 65536, 65537, 1 << 17]) } else { near(random, phase as u32, 40) };
    (heads, marked, Settling { n, f, phase, marks })
}

/// A number that stands in a table, but now and then another.
fn stands(random: &mut Random, right: i32) -> [u8; 4] {
    let value = if random.chance(1, 600) { random.next() as i32 } else { right };
    if random.chance(1, 600) { out_of_range(random) } else { value }.to_le_bytes()
}

/// The entries of a trusted table, and the table with which they are given.
fn entries(random: &mut Random, family: Family) -> (Vec<u8>, usize, Settling) {
    let (heads, marked, settling) = settling(random, family);
    let mut entries = Vec::new();
    for j in 0..heads {
        let value = if marked >> j & 1 == 1 { position(random) } else { 0 };
        entries.extend(stands(random, value));
    }
    if random.chance(1, 20) {
        entries.resize(random.below(200), 0);
    }
    (entries, heads, settling)
}

fn family(random: &mut Random) -> Family {
    if random.chance(1, 3) { OneRound } else { TwoRounds }
}

/// The midpoint, in either family, or with what it kept.
pub fn midpoint(random: &mut Random) -> Call {
    let family = family(random);
    let (entries, _, Settling { n, f, phase, marks }) = entries(random, family);
    if random.chance(1, 2) {
        return Call::MidpointKept { family, n, f, phase, marks, entries: Bytes(entries), out: four(random) };
    }
    Call::Midpoint { family, n, f, phase, marks, entries: Bytes(entries), out: random.next() as i32 }
}

/// An open entry, with any mark and any bytes, and a wanted position: most often one that some position brings, or one beside it.
pub fn reach(random: &mut Random) -> Call {
    let family = family(random);
    let (mut entries, heads, Settling { n, f, phase, marks }) = entries(random, family);
    let open = random.below(heads);
    let marks = if open < 32 && random.chance(1, 2) { marks ^ 1 << open } else { marks };
    let at = 4 * open..4 * open + 4;
    let brought = |u: i32| {
        let mut entries = entries.clone();
        entries.get_mut(at.clone())?.copy_from_slice(&u.to_le_bytes());
        Some(midpoint::midpoint(family, n as usize, f as usize, phase as usize, marks | 1 << open, &entries).ok()?.position)
    };
    let wanted = match random.below(8) {
        0 => position(random),
        1 => out_of_range(random),
        2 => brought(-LIMIT).unwrap_or(0) - random.between(0, 1),
        3 => brought(LIMIT).unwrap_or(0) + random.between(0, 1),
        _ => brought(position(random)).unwrap_or(0) + random.between(-1, 1),
    };
    if random.chance(1, 2) {
        let own = random.next().to_le_bytes();
        entries.get_mut(at.clone()).map(|bytes| bytes.copy_from_slice(&own[..4]));
    }
    let aim = Aim { number: near(random, open as u32, 25), wanted };
    Call::Reach { family, n, f, phase, aim, marks, entries: Bytes(entries), out: random.next() as i32 }
}

/// Limits of positions: most tables so near that all choices can be tried, some as far apart as can be.
pub fn limits(random: &mut Random) -> Call {
    let (heads, marked, Settling { n, f, phase, marks }) = settling(random, TwoRounds);
    let widths: &[i32] = random.pick(&[&[0, 0, 0, 1], &[0, 1, 2, 3], &[0, 1, 100, 2_000_000]]);
    let mut limits = Vec::new();
    for j in 0..heads {
        let low = if marked >> j & 1 == 1 { position(random) } else { 0 };
        let high = if marked >> j & 1 == 1 { LIMIT.min(low + random.pick(widths)) } else { 0 };
        let (low, high) = if random.chance(1, 400) { (high, low - 1) } else { (low, high) };
        limits.extend(stands(random, low));
        limits.extend(stands(random, high));
    }
    if random.chance(1, 20) {
        limits.resize(if random.chance(1, 4) { 4 * heads } else { random.below(300) }, 0);
    }
    Call::Limits { n, f, phase, marks, limits: Bytes(limits), out: [random.next() as i32, random.next() as i32] }
}

/// Four numbers that stand in lent memory.
pub fn four(random: &mut Random) -> [i32; 4] {
    [(); 4].map(|()| random.next() as i32)
}

fn ratio_side(random: &mut Random) -> u32 {
    let any = 1 + random.below(1_000_000) as u32;
    random.pick(&[1, 2, 3, 1 << 19, 999_999, 1_000_000, any, any])
}

/// A numerator and a denominator.
fn ratio(random: &mut Random) -> (u32, u32) {
    let (one, other) = (ratio_side(random), ratio_side(random));
    let (low, high) = if random.chance(1, 12) { (one, other) } else { (one.min(other), one.max(other)) };
    (near(random, high, 12), near(random, low, 12))
}

pub fn scale(random: &mut Random) -> Call {
    let steps = match random.below(24) {
        0 => out_of_range(random),
        1 => random.next() as i32,
        _ => position(random),
    };
    let (numerator, denominator) = ratio(random);
    Call::Scale { steps, numerator, denominator, out: random.next() as i64 }
}

/// Ends of the readings that steps have, and of all readings.
const READINGS: [i64; 10] =
    [0, -1, 1_000_000_000_000, 1_000_000_000_001, -1_000_000_000_000, -1_000_000_000_001, i64::MAX, i64::MAX - 1, i64::MIN, i64::MIN + 1];

/// A step's reading, one beside it or equal to it in its low bits, or any other.
pub fn unscale(random: &mut Random) -> Call {
    let steps = if random.chance(1, 8) { out_of_range(random) } else { position(random) };
    let (numerator, denominator) = ratio(random);
    let reading = (steps as i64 * numerator as i64).div_euclid(denominator.max(1) as i64);
    let nanometres = match random.below(16) {
        0 | 1 => reading.wrapping_add(1),
        2 | 3 => reading.wrapping_sub(1),
        4 => reading.wrapping_add(1 << (40 + random.below(24))),
        5 => random.pick(&READINGS),
        6 => random.next() as i64 >> random.below(64),
        _ => reading,
    };
    Call::Unscale { nanometres, numerator, denominator, out: random.next() as i32 }
}

/// The frame check looks at length, kind and a list's own count, which may be any byte.
pub fn frame_check(random: &mut Random) -> Call {
    let kind = if random.chance(1, 8) { random.pick(&[0, 5, 6, 0x10, 0x12, 0x81]) } else { 1 + random.below(4) as u8 };
    let count = if random.chance(1, 2) { random.below(34) } else { random.below(256) };
    let length = match kind {
        3 => 12 + 4 * count,
        1 => 11,
        _ => 7,
    };
    let mut frame = random.bytes(length);
    frame[..4].copy_from_slice(&[length as u8, (length >> 8) as u8, kind, 0]);
    if kind == 3 {
        frame[7] = count as u8;
    }
    Call::FrameCheck { frame: Bytes(if random.chance(1, 2) { damaged(random, frame) } else { frame }) }
}
