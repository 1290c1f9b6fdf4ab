//! Frames with one to three faults, so that the order of checks shows.

use generator::random::Random;
use generator::spoil::{self, flip, put};

pub fn damaged(random: &mut Random, mut frame: Vec<u8>) -> Vec<u8> {
    if random.chance(1, 2_000) {
        frame.resize(frame.len() + 65_536, 0); // the same length in 16 bits
        return frame;
    }
    for _ in 0..1 + random.below(3) {
        match random.below(10) {
            0 => spoil::length(random, &mut frame),
            1 => spoil::size(random, &mut frame),
            2 => put(&mut frame, 2, &[1 + random.below(4) as u8]),
            3 => spoil::kind(random, &mut frame),
            4 => spoil::sender(random, &mut frame),
            5 => spoil::phase(random, &mut frame),
            6..=8 => spoil::content(random, &mut frame),
            _ => anywhere(random, &mut frame),
        }
    }
    frame
}

fn anywhere(random: &mut Random, frame: &mut [u8]) {
    if !frame.is_empty() {
        let at = random.below(frame.len());
        flip(random, frame, at);
    }
}
