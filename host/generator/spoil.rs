//! Frames spoilt, in one way each. A frame that was right is refused when it was spoilt once; any bytes may be spoilt, also again.

use crate::random::Random;
use rules::frames::{half, word};
use rules::midpoint::LIMIT;

/// Bytes put at a place, if the frame is long enough.
pub fn put(frame: &mut [u8], at: usize, bytes: &[u8]) {
    if let Some(place) = frame.get_mut(at..at + bytes.len()) {
        place.copy_from_slice(bytes);
    }
}

/// One bit of a byte that is there.
pub fn flip(random: &mut Random, frame: &mut [u8], at: usize) {
    if let Some(byte) = frame.get_mut(at) {
        *byte ^= 1 << random.below(8);
    }
}

pub fn out_of_range(random: &mut Random) -> i32 {
    random.pick(&[LIMIT + 1, -LIMIT - 1, i32::MIN, i32::MAX, 2 * LIMIT, 1 << 24, LIMIT + 256])
}

/// The length field alone: 6.
pub fn length(random: &mut Random, frame: &mut [u8]) {
    let right = frame.len() as u16;
    let flipped = right ^ 1 << random.below(16);
    let wrong = random.pick(&[right.wrapping_add(1), right.wrapping_sub(1), right.swap_bytes(), right.wrapping_add(256), 0, flipped, flipped]);
    put(frame, 0, &wrong.to_le_bytes());
}

/// Bytes cut off or added, mostly with a length field that fits: 6 or 8.
pub fn size(random: &mut Random, frame: &mut Vec<u8>) {
    let right = frame.len();
    match random.below(6) {
        0 => frame.truncate(random.below(right + 1)),
        1 => frame.resize(random.below(14), 0),
        2 => frame.extend_from_within(..),
        3 => frame.truncate(right.saturating_sub(4)),
        4 => frame.resize(right + random.pick(&[1, 2, 4, 8]), 0),
        _ => frame.truncate(right.saturating_sub(random.pick(&[1, 2, 3]))),
    }
    if frame.len() == right {
        frame.push(0);
    }
    if random.chance(3, 4) {
        let length = frame.len() as u16;
        put(frame, 0, &length.to_le_bytes());
    }
}

/// An unknown kind: 7.
pub fn kind(random: &mut Random, frame: &mut [u8]) {
    if random.chance(1, 2) {
        flip(random, frame, 3);
    } else {
        put(frame, 2, &[random.pick(&[0, 5, 8, 0x10, 0x12, 0x81])]);
    }
}

/// Another sender: 9.
pub fn sender(random: &mut Random, frame: &mut [u8]) {
    flip(random, frame, 4);
}

/// Another phase: 23.
pub fn phase(random: &mut Random, frame: &mut [u8]) {
    if frame.len() >= 7 {
        let right = half(frame, 5);
        let wrong = random.pick(&[0, 65_535, right.wrapping_sub(1), right.wrapping_add(1), right.swap_bytes(), right ^ 0x100]);
        put(frame, 5, &if wrong == right { right ^ 1 } else { wrong }.to_le_bytes());
    }
}

/// A position out of range, 11; or a list of another count, with a mark too high, or with a wrong entry: 8, 10 or 11.
pub fn content(random: &mut Random, frame: &mut Vec<u8>) {
    if frame.len() < 16 {
        return put(frame, 7, &out_of_range(random).to_le_bytes());
    }
    let n = (frame.len() - 12) / 4;
    let j = random.below(n);
    let (count, mark, entry) = (7, 8 + j % 32 / 8, 12 + 4 * j);
    match random.below(6) {
        0 => flip(random, frame, count),
        1 | 2 => recount(random, frame, n as u8),
        3 if n < 32 => {
            let high = n + random.below(32 - n);
            frame[8 + high / 8] |= 1 << (high % 8);
        }
        4 => {
            frame[mark] &= !(1 << (j % 8));
            frame[entry + random.below(4)] |= 1;
        }
        _ => {
            frame[mark] |= 1 << (j % 8);
            put(frame, entry, &out_of_range(random).to_le_bytes());
        }
    }
}

/// Another count of entries, with the length and marks that fit it: 10.
fn recount(random: &mut Random, frame: &mut Vec<u8>, n: u8) {
    let count = random.pick(&[n.wrapping_add(1), n.wrapping_sub(1), n.wrapping_add(1), n.wrapping_sub(1), 0, 33, 255]);
    let length = 12 + 4 * count as usize;
    frame.resize(length, 0);
    put(frame, 7, &[count]);
    put(frame, 0, &(length as u16).to_le_bytes());
    if count < 32 {
        let marks = word(frame, 8) & ((1 << count) - 1);
        put(frame, 8, &marks.to_le_bytes());
    }
}
