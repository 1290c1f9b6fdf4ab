//! A call with all its arguments, made on both sides: the proved export, and the reference implementation.

use exported::{self, Aim, Block, EVENTS, WORDS};
use rules::family::Family::{self, OneRound};
use rules::frames;
use rules::limits;
use rules::midpoint::{self, Kept};
use rules::reach;
use rules::reading::{page, reading, Reading};
use rules::scale;
use rules::window::Device;
use std::fmt;

/// What an export gives where no step reads so, and where no position brings the wanted one.
const NO_STEP: i32 = i32::MIN;

/// Bytes that are lent, printed in hexadecimal as far as a frame can go.
#[derive(Clone, PartialEq)]
pub struct Bytes(pub Vec<u8>);

impl fmt::Debug for Bytes {
    fn fmt(&self, out: &mut fmt::Formatter) -> fmt::Result {
        self.0.iter().take(160).try_for_each(|byte| write!(out, "{byte:02x}"))?;
        write!(out, " ({} bytes)", self.0.len())
    }
}

/// `out` is what stands in the lent number before the call.
#[derive(Debug)]
pub enum Call {
    FrameCheck { frame: Bytes },
    Midpoint { family: Family, n: u32, f: u32, phase: u32, marks: u32, entries: Bytes, out: i32 },
    MidpointKept { family: Family, n: u32, f: u32, phase: u32, marks: u32, entries: Bytes, out: [i32; 4] },
    Reach { family: Family, n: u32, f: u32, phase: u32, aim: Aim, marks: u32, entries: Bytes, out: i32 },
    Limits { n: u32, f: u32, phase: u32, marks: u32, limits: Bytes, out: [i32; 2] },
    Scale { steps: i32, numerator: u32, denominator: u32, out: i64 },
    Unscale { nanometres: i64, numerator: u32, denominator: u32, out: i32 },
    Start { family: Family, n: u32, f: u32, number: u32, position: i32 },
    Restart { family: Family, n: u32, f: u32, number: u32, phase: u32, round: u32 },
    StartListener { family: Family, n: u32, f: u32, number: u32 },
    RestartListener { family: Family, n: u32, f: u32, number: u32, phase: u32, round: u32 },
    Hear { link: u32, frame: Bytes },
    HearBatch { batch: Bytes, answers: Bytes, room: usize, out: usize },
    Write { buffer: Bytes, room: usize, out: usize },
    Close,
    Adopt,
    Offer { out: [i32; 4] },
    Position { out: i32 },
    Kept { out: [i32; 4] },
    Reading { out: [f32; 3] },
    /// Of so many heads like this one, of which so many words are lent.
    HostPage { heads: usize, words: usize, n: u32, buffer: Bytes, room: usize, out: usize },
    Register { at: u32, out: u8 },
    Window { out: [u8; 16] },
    SetRegister { at: u32, byte: u8 },
    WindowReset { mask: u8 },
    Interrupt,
}

/// What a call gave back and left in lent memory. Memory is disturbed if a refused or reading call changed the block of a head, or a call the batch that
/// it reads.
#[derive(Debug, PartialEq)]
pub struct Answer {
    pub number: u8,
    out: i64,
    kept: [i32; 4],
    /// The bits of three floats.
    floats: [u32; 3],
    lent: Bytes,
    disturbed: bool,
}

impl Call {
    /// The call's place among `tally::CALLS`.
    pub fn index(&self) -> usize {
        match self {
            Call::Start { family: OneRound, .. } => 21,
            Call::Restart { family: OneRound, .. } => 22,
            Call::StartListener { family: OneRound, .. } => 23,
            Call::RestartListener { family: OneRound, .. } => 24,
            Call::Midpoint { family: OneRound, .. } => 27,
            Call::Reach { family: OneRound, .. } => 28,
            Call::MidpointKept { family: OneRound, .. } => 32,
            Call::FrameCheck { .. } => 0,
            Call::Midpoint { .. } => 1,
            Call::MidpointKept { .. } => 2,
            Call::Scale { .. } => 3,
            Call::Unscale { .. } => 4,
            Call::Start { .. } => 5,
            Call::Restart { .. } => 6,
            Call::StartListener { .. } => 7,
            Call::RestartListener { .. } => 8,
            Call::Hear { .. } => 9,
            Call::HearBatch { .. } => 10,
            Call::Write { .. } => 11,
            Call::Close => 12,
            Call::Position { .. } => 13,
            Call::Kept { .. } => 14,
            Call::Register { .. } => 15,
            Call::Window { .. } => 16,
            Call::SetRegister { .. } => 17,
            Call::Interrupt => 18,
            Call::WindowReset { .. } => 31,
            Call::Adopt => 19,
            Call::Offer { .. } => 20,
            Call::Limits { .. } => 25,
            Call::Reach { .. } => 26,
            Call::Reading { .. } => 29,
            Call::HostPage { .. } => 30,
        }
    }

    fn lent(&self) -> Vec<u8> {
        match self {
            Call::FrameCheck { frame } | Call::Hear { frame, .. } => frame.0.clone(),
            Call::Midpoint { entries, .. } | Call::MidpointKept { entries, .. } | Call::Reach { entries, .. } => entries.0.clone(),
            Call::Limits { limits, .. } => limits.0.clone(),
            Call::HearBatch { answers, .. } => answers.0.clone(),
            Call::Write { buffer, .. } | Call::HostPage { buffer, .. } => buffer.0.clone(),
            Call::Window { out } => out.to_vec(),
            _ => Vec::new(),
        }
    }

    /// By the proved export, on a block.
    pub fn exported(&self, block: &mut Block) -> Answer {
        let (before, mut lent) = (*block, self.lent());
        let mut batch = if let Call::HearBatch { batch, .. } = self { batch.0.clone() } else { Vec::new() };
        let (mut kept, mut floats) = (self.kept(), self.floats());
        let (number, out) = match *self {
            Call::FrameCheck { .. } => (exported::frame_check(&mut lent), 0),
            Call::Midpoint { family, n, f, phase, marks, mut out, .. } => {
                (exported::midpoint(family, n, f, phase, marks, &mut lent, &mut out), out as i64)
            }
            Call::Reach { family, n, f, phase, aim, marks, mut out, .. } => {
                (exported::reach(family, n, f, phase, aim, marks, &mut lent, &mut out), out as i64)
            }
            Call::MidpointKept { family, n, f, phase, marks, .. } => {
                (exported::midpoint_kept(family, n, f, phase, marks, &mut lent, &mut kept), 0)
            }
            Call::Limits { n, f, phase, marks, mut out, .. } => {
                let number = exported::limits(n, f, phase, marks, &mut lent, &mut out);
                kept[..2].copy_from_slice(&out);
                (number, 0)
            }
            Call::Scale { steps, numerator, denominator, mut out } => (exported::scale(steps, numerator, denominator, &mut out), out),
            Call::Unscale { nanometres, numerator, denominator, mut out } => {
                (exported::unscale(nanometres, numerator, denominator, &mut out), out as i64)
            }
            Call::Start { family, n, f, number, position } => (block.start(family, n, f, number, position), 0),
            Call::Restart { family, n, f, number, phase, round } => (block.restart(family, n, f, number, phase, round), 0),
            Call::StartListener { family, n, f, number } => (block.start_listener(family, n, f, number), 0),
            Call::RestartListener { family, n, f, number, phase, round } => (block.restart_listener(family, n, f, number, phase, round), 0),
            Call::Hear { link, .. } => (block.hear(link, &mut lent), 0),
            Call::HearBatch { room, mut out, .. } => (block.hear_batch(&mut batch, &mut lent[..room], &mut out), out as i64),
            Call::Write { room, mut out, .. } => (block.write(&mut lent[..room], &mut out), out as i64),
            Call::Close => (block.close(), 0),
            Call::Adopt => (block.adopt(), 0),
            Call::Offer { .. } => (block.offer(&mut kept), 0),
            Call::Position { mut out } => (block.position(&mut out), out as i64),
            Call::Kept { .. } => (block.kept(&mut kept), 0),
            Call::Reading { .. } => (block.reading(&mut floats), 0),
            Call::HostPage { heads, words, n, room, mut out, .. } => {
                let mut blocks = vec![*block; heads];
                let number = exported::host_page(&mut blocks, words, n, &mut lent[..room], &mut out);
                *block = *blocks.iter().find(|&one| one != block).unwrap_or(block); // as a change would be seen
                (number, out as i64)
            }
            Call::Register { at, mut out } => (block.register(at, &mut out), out as i64),
            Call::Window { mut out } => {
                block.window(&mut out);
                lent = out.to_vec();
                (0, 0)
            }
            Call::SetRegister { at, byte } => (block.set_register(at, byte), 0),
            Call::WindowReset { mask } => {
                block.window_reset(mask);
                (0, 0)
            }
            Call::Interrupt => (block.interrupt(), 0),
        };
        let reads = self.reads();
        let read = matches!(self, Call::HearBatch { batch: given, .. } if given.0 != batch);
        let mut before = before;
        if number == 25 && matches!(self, Call::Close) {
            before.0[EVENTS].copy_from_slice(&block.0[EVENTS]); // its event is compared in the window
        }
        let disturbed = read || (number != 0 || reads) && *block != before;
        Answer { number, out, kept, floats: floats.map(f32::to_bits), lent: Bytes(lent), disturbed }
    }

    /// Whether the call may not change the block, whatever it answers.
    fn reads(&self) -> bool {
        matches!(self, Call::Write { .. } | Call::Position { .. } | Call::Kept { .. } | Call::Offer { .. })
            || matches!(self, Call::Reading { .. } | Call::HostPage { .. })
            || matches!(self, Call::Register { .. } | Call::Window { .. } | Call::Interrupt)
    }

    /// By the reference implementation, on its head.
    pub fn plain(&self, device: &mut Device) -> Answer {
        let mut lent = self.lent();
        let head = &mut device.head;
        let (mut kept, mut floats) = (self.kept(), self.floats());
        let (done, out) = match *self {
            Call::FrameCheck { .. } => (frames::check(&lent).map(drop), 0),
            Call::Midpoint { family, n, f, phase, marks, out, .. } => {
                valued(midpoint::midpoint(family, n as usize, f as usize, phase as usize, marks, &lent).map(|kept| kept.position), out)
            }
            Call::MidpointKept { family, n, f, phase, marks, .. } => {
                (midpoint::midpoint(family, n as usize, f as usize, phase as usize, marks, &lent).map(|new| kept = four(new)), 0)
            }
            Call::Reach { family, n, f, phase, aim, marks, out, .. } => {
                let found = reach::reach(family, n as usize, f as usize, phase as usize, aim.number as usize, marks, &lent, aim.wanted);
                valued(found.map(|position| position.unwrap_or(NO_STEP)), out)
            }
            Call::Limits { n, f, phase, marks, .. } => {
                (limits::limits(n as usize, f as usize, phase as usize, marks, &lent).map(|(low, high)| kept[..2].copy_from_slice(&[low, high])), 0)
            }
            Call::Scale { steps, numerator, denominator, out } => valued(scale::scale(steps, numerator, denominator), out),
            Call::Unscale { nanometres, numerator, denominator, out } => {
                valued(scale::unscale(nanometres, numerator, denominator).map(|step| step.unwrap_or(NO_STEP)), out)
            }
            Call::Start { family, n, f, number, position } => (device.start(family, n as usize, f as usize, number as usize, position), 0),
            Call::Restart { family, n, f, number, phase, round } => {
                (device.restart(family, n as usize, f as usize, number as usize, phase as usize, round as usize), 0)
            }
            Call::StartListener { family, n, f, number } => (device.start_listener(family, n as usize, f as usize, number as usize), 0),
            Call::RestartListener { family, n, f, number, phase, round } => {
                (device.restart_listener(family, n as usize, f as usize, number as usize, phase as usize, round as usize), 0)
            }
            Call::Hear { link, .. } => (device.hear(link as usize, &lent), 0),
            Call::HearBatch { ref batch, room, out, .. } => {
                valued(device.hear_batch(&batch.0, &mut lent[..room]).map(|count| count as i64), out as i64)
            }
            Call::Write { room, out, .. } => valued(head.write(&mut lent[..room]).map(|length| length as i64), out as i64),
            Call::Close => (device.close(), 0),
            Call::Adopt => (device.adopt(), 0),
            Call::Offer { .. } => {
                kept = device.offer.map_or(kept, four);
                (device.offer.map_or(Ok(()), |_| Err(1)), 0)
            }
            Call::Position { out } => (head.position.map_or(Ok(()), |_| Err(1)), head.position.unwrap_or(out) as i64),
            Call::Kept { .. } => {
                kept = head.kept.map_or(kept, four);
                (head.kept.map_or(Ok(()), |_| Err(1)), 0)
            }
            Call::Reading { .. } => {
                let shown = reading(head.kept);
                match shown {
                    Reading::Unknown => {}
                    Reading::Point(x) => floats[0] = x,
                    Reading::Range(lowest, highest, midpoint) => floats = [lowest, highest, midpoint],
                }
                (kind(shown), 0)
            }
            Call::HostPage { words, n, room, out, .. } => {
                let given = vec![reading(head.kept); words / WORDS];
                valued(page(n as usize, &given, &mut lent[..room]).map(|length| length as i64), out as i64)
            }
            Call::Register { at, out } => valued(device.read(at as usize), out),
            Call::Window { .. } => {
                lent = device.bytes().to_vec();
                (Ok(()), 0)
            }
            Call::SetRegister { at, byte } => (device.write(at as usize, byte), 0),
            Call::WindowReset { mask } => (device.write(10, 7).and(device.write(11, mask)), 0),
            Call::Interrupt => (if device.is_up() { Err(1) } else { Ok(()) }, 0),
        };
        Answer { number: done.err().unwrap_or(0), out, kept, floats: floats.map(f32::to_bits), lent: Bytes(lent), disturbed: false }
    }

    /// The three floats of a reading that are lent.
    fn floats(&self) -> [f32; 3] {
        if let Call::Reading { out } = self { *out } else { [0.0; 3] }
    }

    /// The four numbers of a kept range that are lent, or the two of limits.
    fn kept(&self) -> [i32; 4] {
        match self {
            Call::MidpointKept { out, .. } | Call::Kept { out } | Call::Offer { out } => *out,
            Call::Limits { out: [low, high], .. } => [*low, *high, 0, 0],
            _ => [0; 4],
        }
    }
}

/// A reading's kind, as a number that is answered.
fn kind(reading: Reading) -> Result<(), u8> {
    match reading {
        Reading::Unknown => Ok(()),
        Reading::Point(_) => Err(1),
        Reading::Range(..) => Err(2),
    }
}

/// A kept range as C has it.
pub fn four(kept: Kept) -> [i32; 4] {
    [kept.low, kept.high, kept.trim as i32, kept.position]
}

/// The value given, or what stood there before a refusal.
fn valued<T: Into<i64> + Copy>(result: Result<T, u8>, before: T) -> (Result<(), u8>, i64) {
    (result.map(drop), result.unwrap_or(before).into())
}
