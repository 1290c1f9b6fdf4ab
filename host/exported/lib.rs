//! The proved calls, as host/include/focus.h declares them. Whatever is lent is taken as mutable here, even if a call only reads it, so that a
//! change would be seen.

use rules::family::Family::{self, OneRound, TwoRounds};
use std::ops::Range;

mod c {
    use super::Block;

    extern "C" {
        pub fn focus_frame_check(frame: *const u8, length: usize) -> u8;
        pub fn focus_midpoint(n: u32, f: u32, phase: u32, marks: u32, entries: *const u8, length: usize, position: *mut i32) -> u8;
        pub fn focus_midpoint_kept(n: u32, f: u32, phase: u32, marks: u32, entries: *const u8, length: usize, kept: *mut [i32; 4]) -> u8;
        pub fn focus_one_round_midpoint(n: u32, f: u32, phase: u32, marks: u32, entries: *const u8, length: usize, position: *mut i32) -> u8;
        pub fn focus_one_round_midpoint_kept(n: u32, f: u32, phase: u32, marks: u32, entries: *const u8, length: usize, kept: *mut [i32; 4]) -> u8;
        pub fn focus_reach(n: u32, f: u32, phase: u32, number: u32, marks: u32, entries: *const u8, length: usize, wanted: i32, position: *mut i32) -> u8;
        pub fn focus_one_round_reach(n: u32, f: u32, phase: u32, number: u32, marks: u32, entries: *const u8, length: usize, wanted: i32, position: *mut i32) -> u8;
        pub fn focus_limits(n: u32, f: u32, phase: u32, marks: u32, limits: *const u8, length: usize, range: *mut [i32; 2]) -> u8;
        pub fn focus_scale(steps: i32, numerator: u32, denominator: u32, nanometres: *mut i64) -> u8;
        pub fn focus_unscale(nanometres: i64, numerator: u32, denominator: u32, steps: *mut i32) -> u8;
        pub fn focus_head_start(head: *mut Block, n: u32, f: u32, number: u32, position: i32) -> u8;
        pub fn focus_head_restart(head: *mut Block, n: u32, f: u32, number: u32, phase: u32, round: u32) -> u8;
        pub fn focus_listener_start(head: *mut Block, n: u32, f: u32, number: u32) -> u8;
        pub fn focus_listener_restart(head: *mut Block, n: u32, f: u32, number: u32, phase: u32, round: u32) -> u8;
        pub fn focus_one_round_start(head: *mut Block, n: u32, f: u32, number: u32, position: i32) -> u8;
        pub fn focus_one_round_restart(head: *mut Block, n: u32, f: u32, number: u32, phase: u32, round: u32) -> u8;
        pub fn focus_one_round_listener_start(head: *mut Block, n: u32, f: u32, number: u32) -> u8;
        pub fn focus_one_round_listener_restart(head: *mut Block, n: u32, f: u32, number: u32, phase: u32, round: u32) -> u8;
        pub fn focus_head_hear(head: *mut Block, link: u32, frame: *const u8, length: usize) -> u8;
        pub fn focus_head_hear_batch(head: *mut Block, batch: *const u8, length: usize, answers: *mut u8, room: usize, count: *mut usize) -> u8;
        pub fn focus_head_write(head: *const Block, buffer: *mut u8, room: usize, length: *mut usize) -> u8;
        pub fn focus_head_close(head: *mut Block) -> u8;
        pub fn focus_head_adopt(head: *mut Block) -> u8;
        pub fn focus_head_has_offer(head: *const Block, kept: *mut [i32; 4]) -> u8;
        pub fn focus_head_has_position(head: *const Block, position: *mut i32) -> u8;
        pub fn focus_head_has_kept(head: *const Block, kept: *mut [i32; 4]) -> u8;
        pub fn focus_head_since(head: *const Block) -> u8;
        pub fn focus_head_reading(head: *const Block, floats: *mut [f32; 3]) -> u8;
        pub fn focus_host_page(blocks: *const Block, words: usize, n: u32, buffer: *mut u8, room: usize, length: *mut usize) -> u8;
        pub fn focus_head_register(head: *const Block, at: u32, byte: *mut u8) -> u8;
        pub fn focus_head_window(head: *const Block, bytes: *mut [u8; 16]);
        pub fn focus_head_set_register(head: *mut Block, at: u32, byte: u8) -> u8;
        pub fn focus_head_has_interrupt(head: *const Block) -> u8;
        pub fn focus_head_window_reset(head: *mut Block, mask: u8);
        pub fn focus_version() -> u32;
        pub fn focus_head_offer(head: *const Block, kept: *mut [i32; 4]) -> u8;
        pub fn focus_head_position(head: *const Block, position: *mut i32) -> u8;
        pub fn focus_head_kept(head: *const Block, kept: *mut [i32; 4]) -> u8;
        pub fn focus_head_interrupt(head: *const Block) -> u8;
    }
}

/// The 32-bit numbers of a block, and its bytes.
pub const WORDS: usize = 1116;
pub const SIZE: usize = 4 * WORDS;

/// Whether the header has blocks of this size, and the version that the library says.
pub fn as_in_header() -> bool {
    let (header, version) = (include_str!("../include/focus.h"), unsafe { c::focus_version() });
    let text = format!("\"{}.{}.{}\"", version / 10_000, version / 100 % 100, version % 100);
    header.contains(&format!("opaque[{WORDS}]")) && header.contains(&format!("FOCUS_VERSION_TEXT {text}"))
}

/// The bytes of a block, word 23, that no call changes; those of its count of phase ends; those of its pending events, which a closing refused 25
/// changes; and the word that says whether an offer stands.
pub const BESIDE: Range<usize> = 92..96;
pub const SINCE: Range<usize> = 60..64;
pub const EVENTS: Range<usize> = 64..68;
pub const OFFERED: Range<usize> = 72..76;

/// A head's block, as C keeps it.
#[repr(C, align(4))]
#[derive(Clone, Copy, PartialEq)]
pub struct Block(pub [u8; SIZE]);

pub fn frame_check(frame: &mut [u8]) -> u8 {
    unsafe { c::focus_frame_check(frame.as_mut_ptr(), frame.len()) }
}

pub fn midpoint(family: Family, n: u32, f: u32, phase: u32, marks: u32, entries: &mut [u8], position: &mut i32) -> u8 {
    let (entries, length) = (entries.as_mut_ptr(), entries.len());
    match family {
        TwoRounds => unsafe { c::focus_midpoint(n, f, phase, marks, entries, length, position) },
        OneRound => unsafe { c::focus_one_round_midpoint(n, f, phase, marks, entries, length, position) },
    }
}

/// What the reach call is asked of a table: the number of the open entry, and the wanted position.
#[derive(Clone, Copy, Debug)]
pub struct Aim {
    pub number: u32,
    pub wanted: i32,
}

pub fn reach(family: Family, n: u32, f: u32, phase: u32, aim: Aim, marks: u32, entries: &mut [u8], position: &mut i32) -> u8 {
    let (entries, length) = (entries.as_mut_ptr(), entries.len());
    match family {
        TwoRounds => unsafe { c::focus_reach(n, f, phase, aim.number, marks, entries, length, aim.wanted, position) },
        OneRound => unsafe { c::focus_one_round_reach(n, f, phase, aim.number, marks, entries, length, aim.wanted, position) },
    }
}

pub fn midpoint_kept(family: Family, n: u32, f: u32, phase: u32, marks: u32, entries: &mut [u8], kept: &mut [i32; 4]) -> u8 {
    let (entries, length) = (entries.as_mut_ptr(), entries.len());
    match family {
        TwoRounds => unsafe { c::focus_midpoint_kept(n, f, phase, marks, entries, length, kept) },
        OneRound => unsafe { c::focus_one_round_midpoint_kept(n, f, phase, marks, entries, length, kept) },
    }
}

pub fn limits(n: u32, f: u32, phase: u32, marks: u32, limits: &mut [u8], range: &mut [i32; 2]) -> u8 {
    unsafe { c::focus_limits(n, f, phase, marks, limits.as_mut_ptr(), limits.len(), range) }
}

pub fn scale(steps: i32, numerator: u32, denominator: u32, nanometres: &mut i64) -> u8 {
    unsafe { c::focus_scale(steps, numerator, denominator, nanometres) }
}

pub fn unscale(nanometres: i64, numerator: u32, denominator: u32, steps: &mut i32) -> u8 {
    unsafe { c::focus_unscale(nanometres, numerator, denominator, steps) }
}

/// The page of n heads, of which so many words are lent.
pub fn host_page(blocks: &mut [Block], words: usize, n: u32, buffer: &mut [u8], length: &mut usize) -> u8 {
    assert!(words <= WORDS * blocks.len());
    unsafe { c::focus_host_page(blocks.as_mut_ptr(), words, n, buffer.as_mut_ptr(), buffer.len(), length) }
}

impl Block {
    pub fn start(&mut self, family: Family, n: u32, f: u32, number: u32, position: i32) -> u8 {
        match family {
            TwoRounds => unsafe { c::focus_head_start(self, n, f, number, position) },
            OneRound => unsafe { c::focus_one_round_start(self, n, f, number, position) },
        }
    }

    pub fn restart(&mut self, family: Family, n: u32, f: u32, number: u32, phase: u32, round: u32) -> u8 {
        match family {
            TwoRounds => unsafe { c::focus_head_restart(self, n, f, number, phase, round) },
            OneRound => unsafe { c::focus_one_round_restart(self, n, f, number, phase, round) },
        }
    }

    pub fn start_listener(&mut self, family: Family, n: u32, f: u32, number: u32) -> u8 {
        match family {
            TwoRounds => unsafe { c::focus_listener_start(self, n, f, number) },
            OneRound => unsafe { c::focus_one_round_listener_start(self, n, f, number) },
        }
    }

    pub fn restart_listener(&mut self, family: Family, n: u32, f: u32, number: u32, phase: u32, round: u32) -> u8 {
        match family {
            TwoRounds => unsafe { c::focus_listener_restart(self, n, f, number, phase, round) },
            OneRound => unsafe { c::focus_one_round_listener_restart(self, n, f, number, phase, round) },
        }
    }

    pub fn hear(&mut self, link: u32, frame: &mut [u8]) -> u8 {
        unsafe { c::focus_head_hear(self, link, frame.as_mut_ptr(), frame.len()) }
    }

    pub fn hear_batch(&mut self, batch: &mut [u8], answers: &mut [u8], count: &mut usize) -> u8 {
        unsafe { c::focus_head_hear_batch(self, batch.as_mut_ptr(), batch.len(), answers.as_mut_ptr(), answers.len(), count) }
    }

    pub fn write(&mut self, buffer: &mut [u8], length: &mut usize) -> u8 {
        unsafe { c::focus_head_write(self, buffer.as_mut_ptr(), buffer.len(), length) }
    }

    pub fn close(&mut self) -> u8 {
        unsafe { c::focus_head_close(self) }
    }

    pub fn adopt(&mut self) -> u8 {
        unsafe { c::focus_head_adopt(self) }
    }

    pub fn offer(&mut self, kept: &mut [i32; 4]) -> u8 {
        unsafe { c::focus_head_has_offer(self, kept) }
    }

    pub fn position(&mut self, position: &mut i32) -> u8 {
        unsafe { c::focus_head_has_position(self, position) }
    }

    pub fn kept(&mut self, kept: &mut [i32; 4]) -> u8 {
        unsafe { c::focus_head_has_kept(self, kept) }
    }

    pub fn since(&mut self) -> u8 {
        unsafe { c::focus_head_since(self) }
    }

    pub fn reading(&mut self, floats: &mut [f32; 3]) -> u8 {
        unsafe { c::focus_head_reading(self, floats) }
    }

    pub fn register(&mut self, at: u32, byte: &mut u8) -> u8 {
        unsafe { c::focus_head_register(self, at, byte) }
    }

    pub fn window(&mut self, bytes: &mut [u8; 16]) {
        unsafe { c::focus_head_window(self, bytes) }
    }

    pub fn set_register(&mut self, at: u32, byte: u8) -> u8 {
        unsafe { c::focus_head_set_register(self, at, byte) }
    }

    pub fn interrupt(&mut self) -> u8 {
        unsafe { c::focus_head_has_interrupt(self) }
    }

    pub fn window_reset(&mut self, mask: u8) {
        unsafe { c::focus_head_window_reset(self, mask) }
    }

    /// Whether the four calls that have former names do the same under them, with what is lent holding this number.
    pub fn is_as_formerly(&mut self, lent: i32) -> bool {
        let mut now = ([lent; 4], lent, [lent; 4]);
        let mut formerly = now;
        let numbers = [self.offer(&mut now.0), self.position(&mut now.1), self.kept(&mut now.2), self.interrupt()];
        let (offer, position, kept) = (&mut formerly.0, &mut formerly.1, &mut formerly.2);
        let others = unsafe {
            [c::focus_head_offer(self, offer), c::focus_head_position(self, position), c::focus_head_kept(self, kept), c::focus_head_interrupt(self)]
        };
        numbers == others && now == formerly
    }
}
